"""The pages of the gateway over HTTP (Flask): log-in, a clerk's till, a manager's board, and the stream of what
changes."""

from __future__ import annotations

import json
import os
import re
import time
from typing import Any, Iterator

import boxoffice
from counter import Counter, NotAsked, Unknown
from flask import Blueprint, Flask, Response, abort, current_app, g, jsonify, redirect, request, send_from_directory
from gateway import Gateway

STATIC = os.path.join(os.path.dirname(os.path.realpath(__file__)), "static")
WITHOUT_LOGIN = {"/favicon.ico", "/login", "/static/style.css", "/static/login.js"}
TRIES, PAUSE = 5, 30.0  # After so many wrong passwords a name waits so many seconds.
MINUTES = 240.0  # The longest hold.
HEADS = {
    "Cache-Control": "no-store",
    "X-Content-Type-Options": "nosniff",
    "Referrer-Policy": "no-referrer",
    "Content-Security-Policy": "default-src 'self'; frame-ancestors 'none'; form-action 'self'",
}
pages = Blueprint("pages", __name__)
tries: dict[str, tuple[int, float]] = {}


def make_app(gateway: Gateway) -> Flask:
    app = Flask(__name__, static_folder=None)
    app.config.update(MAX_CONTENT_LENGTH=10_000, GATEWAY=gateway)
    app.register_blueprint(pages)
    return app


def gateway() -> Gateway:
    found = current_app.config["GATEWAY"]
    assert isinstance(found, Gateway)
    return found


@pages.before_request
def guard() -> Any:
    """Refuses what no page of ours sends, and whoever has not logged in."""
    public = gateway().config.public
    if request.host != re.sub("^https?://", "", public):  # A page of another name that points here.
        return Response("another name\n", status=421)
    if request.method == "POST" and (request.headers.get("Origin") != public or not request.is_json):
        abort(403)
    g.user = gateway().clicks.user_of_token(request.cookies.get("boxoffice", ""))
    if g.user is None and request.path not in WITHOUT_LOGIN:
        is_page = request.method == "GET" and not request.path.startswith(("/stream", "/static", "/points"))
        return redirect("/login") if is_page else (jsonify(error="log in"), 401)
    return None


@pages.after_request
def add_heads(response: Response) -> Response:
    response.headers.update(HEADS)
    return response


@pages.get("/static/<name>")
def static_file(name: str) -> Response:
    return send_from_directory(STATIC, name)


@pages.get("/favicon.ico")
def icon() -> Response:
    return Response(status=204)


@pages.get("/")
def till_page() -> Any:
    return send_from_directory(STATIC, "till.html") if g.user["role"] == "clerk" else redirect("/board")


@pages.get("/board")
def board_page() -> Response:
    only("manager")
    return send_from_directory(STATIC, "board.html")


@pages.get("/login")
def login_page() -> Response:
    return send_from_directory(STATIC, "login.html")


@pages.post("/login")
def log_in() -> Any:
    given = body()
    name, password = str(given.get("name", ""))[:40], str(given.get("password", ""))[:200]
    count, at = tries.get(name, (0, 0.0))
    if count >= TRIES and time.monotonic() - at < PAUSE:
        return jsonify(error="too many tries: wait half a minute"), 429
    user = gateway().clicks.user_of_password(name, password)
    if user is None:
        if len(tries) > 1000:
            tries.clear()
        tries[name] = (count + 1 if time.monotonic() - at < 2 * PAUSE else 1, time.monotonic())
        return jsonify(error="name or password is wrong"), 403
    tries.pop(name, None)
    response = jsonify(to="/board" if user["role"] == "manager" else "/")
    is_safe = gateway().config.public.startswith("https")
    response.set_cookie("boxoffice", gateway().clicks.log_in(name), httponly=True, samesite="Strict", secure=is_safe)
    return response


@pages.post("/logout")
def log_out() -> Response:
    gateway().clicks.log_out(request.cookies.get("boxoffice", ""))
    return jsonify(to="/login")


def only(role: str) -> None:
    if g.user["role"] != role:
        abort(403)


def counter() -> Counter:
    only("clerk")
    return gateway().counters[g.user["name"]]


def body() -> dict[str, Any]:
    given = request.get_json()
    return given if isinstance(given, dict) else abort(400)


def natural(given: dict[str, Any], name: str) -> int | None:
    number = given.get(name)
    if number is not None and (type(number) is not int or not 1 <= number <= boxoffice.MAX_NUMBER):
        raise ValueError(f"{name} is no number from 1 on")
    return number


def what_of(verb: str, given: dict[str, Any]) -> dict[str, Any]:
    """What a click asks for; ValueError if it is nothing that a till asks."""
    event, seats, sale, minutes = (
        given.get("event"),
        natural(given, "seats"),
        natural(given, "sale"),
        given.get("minutes") or 0,
    )
    if (
        verb == "sell"
        and event in gateway().config.events
        and seats
        and isinstance(minutes, (int, float))
        and 0 <= minutes <= MINUTES
    ):
        until = time.time() + 60 * minutes if minutes else None
        return {"verb": "sell", "event": event, "seats": seats, "sale": None, "until": until}
    if verb == "refund" and sale:
        return {"verb": "refund", "event": None, "seats": seats, "sale": sale, "until": None}
    raise ValueError("this is nothing that a till asks")


@pages.post("/ask/<verb>")
def ask(verb: str) -> Any:
    """Asks a click, or tells again what it came to."""
    me, given = counter(), body()
    click = given.get("click")
    try:
        if not isinstance(click, str) or not re.fullmatch("[0-9a-f-]{36}", click):
            raise ValueError("a click has an id")
        row = me.perform(click, what_of(verb, given), gateway().is_there)
    except ValueError as error:
        return jsonify(state="wrong", error=str(error)), 400
    except NotAsked:
        return jsonify(state="not-asked"), 503
    except Unknown as silence:
        return jsonify(state="unknown", number=silence.number), 202
    except boxoffice.TillError as error:
        return jsonify(state="wrong", error=f"{type(error).__name__}: {error}"), 500
    finally:
        gateway().change()
    return jsonify(
        state="answered", **{key: row[key] for key in ("number", "reply", "until", "seats", "event", "sale")}
    )


@pages.post("/paid")
def paid() -> Response:
    """A hold becomes a sale, if its time is not up."""
    me, sale = counter(), natural(body(), "sale")
    with me.lock:
        state = gateway().clicks.pay(me.name, sale or 0)
    gateway().change()
    return jsonify(state=state)


@pages.post("/release")
def release() -> Response:
    """A hold is given back now; so is a sale whose reply is not known yet, once it is."""
    gateway().clicks.end_hold(counter().name, natural(body(), "sale") or 0)
    gateway().change()
    return jsonify(state="ending")


@pages.get("/stream")
def stream() -> Response:
    """What the page shows, whenever it changes (server-sent events)."""
    it, name = gateway(), str(g.user["name"])
    me = it.counters.get(name)

    def events() -> Iterator[str]:
        for _ in it.changes():
            shown = {**it.seen, "till": me.shown() if me else None, "name": name, "now": time.time()}
            if me is None:
                shown["moves"] = it.moves
            yield f"data: {json.dumps(shown)}\n\n"

    return Response(events(), mimetype="text/event-stream", headers={"X-Accel-Buffering": "no"})


@pages.get("/points")
def points() -> Response:
    only("manager")
    return jsonify(gateway().points)
