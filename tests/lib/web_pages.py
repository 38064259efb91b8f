#!/usr/bin/python3
"""The pages of clients/web in headless Chromium, over a gateway that runs. tests/web.py starts it.

usage: web_pages.py URL PASSWORDS PORT LIMIT       (a JSON object of names and passwords; the office's)

Sells by a double click, by five clicks at once, by a key that is held down, with the page loaded again before the
reply, in two tabs at once, with one click in two tabs, and in a tab that is closed; and holds once. Prints how many
sales these are. Ends with status 1 if a page did or said something else than it should, and with status 77 if no
browser starts here, or one goes away. """

from __future__ import annotations

import json
import os
import socket
import sys
import time
import uuid
from typing import Callable, TypeVar

from selenium import webdriver
from selenium.common.exceptions import WebDriverException
from selenium.webdriver.chrome.options import Options
from selenium.webdriver.chrome.service import Service
from selenium.webdriver.common.action_chains import ActionChains
from selenium.webdriver.common.by import By
from selenium.webdriver.common.keys import Keys

SHOTS = os.environ.get("WEB_SHOTS")
WIDTHS = (1280, 1024, 420)
# How often a browser is started that does not start, and the status where it never does or goes away.
STARTS, NO_BROWSER = 3, 77
# What is said of a browser that went away, for want of memory for one.
GONE = ("tab crashed", "disconnected", "invalid session id", "not reachable")


def is_gone(error: WebDriverException) -> bool:
    return any(words in str(error) for words in GONE)


Shown = TypeVar("Shown")


def until(what: str, holds: Callable[[], Shown | None], seconds: float = 60.0) -> Shown:
    end = time.monotonic() + seconds
    while time.monotonic() < end:
        try:
            if found := holds():
                return found
        except WebDriverException as error:
            if is_gone(error):
                raise
        time.sleep(0.05)
    sys.exit(f"{what}: not within {seconds:.0f} s")


def started() -> webdriver.Chrome:
    """A browser. One may not start for want of memory, a sandbox or a home, which says nothing of a page."""
    options = Options()
    for word in (
        "--headless=new",
        "--no-sandbox",
        "--disable-gpu",
        "--disable-dev-shm-usage",
        "--window-size=1280,900",
    ):
        options.add_argument(word)
    for _ in range(STARTS):
        try:
            return webdriver.Chrome(service=Service("/usr/bin/chromedriver"), options=options)
        except WebDriverException as error:
            print(str(error).split("\n", maxsplit=1)[0], file=sys.stderr)
            time.sleep(2)
    sys.exit(NO_BROWSER)


class Page:
    """A browser that shows a page of the gateway. `sales` are those that it made."""

    sales = 0

    def __init__(self, browser: webdriver.Chrome, url: str, name: str, password: str) -> None:
        self.browser, self.url = browser, url
        self.browser.get(url + "/login")
        self.browser.delete_all_cookies()
        self.browser.find_element(By.ID, "name").send_keys(name)
        self.browser.find_element(By.ID, "password").send_keys(password + Keys.ENTER)
        until("the login", lambda: "/login" not in self.browser.current_url)
        until("an open office", lambda: self.text("state") == "open")

    def text(self, name: str) -> str:
        return str(self.browser.execute_script("return document.getElementById(arguments[0]).innerText", name))

    def said(self) -> str:
        return str(self.browser.execute_script("return document.querySelector('#result b').textContent"))

    def key(self, key: str) -> None:
        self.browser.find_element(By.TAG_NAME, "body").send_keys(key)

    def settled(self) -> None:
        until(
            "the click is answered", lambda: not self.browser.execute_script("return sessionStorage.getItem('click')")
        )
        time.sleep(0.6)  # The page takes no click right after an answer.

    def click(self) -> None:
        """Clicks Sell, and returns while it is asked."""
        is_off = "return document.getElementById('sell').disabled"
        until("a button that sells", lambda: not self.browser.execute_script(is_off))
        self.browser.execute_script("document.getElementById('sell').click()")

    def has_sold(self, what: str, sales: int, seats: int, before: int) -> None:
        """So many sales of so many seats were made since there were so many left, and no more."""
        self.settled()
        until(f"{what}: {sales} of {seats} seats", lambda: self.text("left") == str(before - sales * seats))
        self.sales += sales

    def shot(self, name: str) -> None:
        if SHOTS:
            self.browser.save_screenshot(os.path.join(SHOTS, name + ".png"))

    def press(self, key: str, code: int, repeats: int) -> None:
        """A key that is held down for so many repeats."""
        it: dict[str, object] = {"key": key, "code": key, "windowsVirtualKeyCode": code, "text": "\r"}
        for at in range(repeats):
            self.browser.execute_cdp_cmd("Input.dispatchKeyEvent", {"type": "keyDown", **it, "autoRepeat": at > 0})
            time.sleep(0.03)
        self.browser.execute_cdp_cmd("Input.dispatchKeyEvent", {"type": "keyUp", **it})

    def fits(self, width: int) -> bool:
        """Whether the page needs no scrolling sideways at this width."""
        self.browser.execute_cdp_cmd(
            "Emulation.setDeviceMetricsOverride",
            {"width": width, "height": 900, "deviceScaleFactor": 1, "mobile": False},
        )
        time.sleep(0.3)
        return bool(self.browser.execute_script("return document.documentElement.scrollWidth <= window.innerWidth"))


def sells_each_once(page: Page) -> None:
    until("the numbers", lambda: page.text("left") == "160")
    page.key("3")
    ActionChains(page.browser).double_click(page.browser.find_element(By.ID, "sell")).perform()
    page.has_sold("a double click", 1, 3, 160)
    until("it says so", lambda: page.said() == "Sold: 3 seats")
    page.browser.execute_script("const e = document.getElementById('sell'); for (let i = 0; i < 5; i++) e.click()")
    page.has_sold("five clicks at once", 1, 3, 157)
    page.browser.execute_script("document.activeElement.blur()")
    page.press("Enter", 13, 30)
    page.has_sold("a key that is held down", 1, 3, 154)
    page.shot("web-till")


def holds_and_pays(page: Page) -> None:
    page.key("2")
    page.key("h")
    page.has_sold("a hold", 1, 2, 151)
    until("it says so", lambda: page.said() == "Held: 2 seats")
    page.shot("web-hold")
    page.key("p")
    until("it is paid", lambda: page.said() == "Paid")
    page.browser.refresh()
    until("the page comes back", lambda: page.text("left") == "149")


def is_loaded_again(page: Page) -> None:
    """A page that is loaded again before the reply, and that is left and comes back."""
    page.click()
    page.browser.refresh()
    page.has_sold("a page that is loaded again", 1, 2, 149)
    page.browser.get(page.url + "/?hold=7")
    until("the page", lambda: page.text("left") == "147")
    page.click()
    page.browser.back()
    until("the page before", lambda: page.text("left") == "145")
    page.sales += 1
    for move in (page.browser.forward, page.browser.back, page.browser.refresh):
        move()
        page.has_sold("back and forward", 0, 2, 145)


def has_tabs(page: Page) -> None:
    """Two tabs that sell at once, that have one click, and of which one is closed while it asks."""
    browser, first = page.browser, page.browser.current_window_handle
    browser.switch_to.new_window("tab")
    second = browser.current_window_handle
    browser.get(page.url)
    for tab in (second, first):
        browser.switch_to.window(tab)
        page.click()
    page.has_sold("two tabs", 2, 2, 145)
    click = {"click": str(uuid.uuid4()), "verb": "sell", "event": "gala", "seats": 2}
    for tab in (second, first):
        browser.switch_to.window(tab)
        browser.execute_script("sessionStorage.setItem('click', arguments[0])", json.dumps(click))
        browser.refresh()
    for tab in (second, first):
        browser.switch_to.window(tab)
        page.has_sold("one click in two tabs", int(tab == first), 2, 141 if tab == first else 139)
        until("both say so", lambda: page.said() == "Sold: 2 seats")
    browser.switch_to.window(second)
    page.click()
    browser.close()
    browser.switch_to.window(first)
    time.sleep(3)
    # (what was not sent yet as the tab was closed is never asked)
    page.has_sold("a tab that is closed", int(page.text("left") != "139"), 2, 139)


def refuses(page: Page) -> None:
    page.browser.execute_script("document.getElementById('number').value = '999'")
    page.browser.find_element(By.CSS_SELECTOR, "#find button").click()
    page.settled()
    until("a refund of nothing", lambda: page.said() == "Refused: no-sale")


def shows_shares(board: Page, port: int) -> None:
    """The board has what each site may sell, and what was ceded."""
    until("what each site has", lambda: "left at site 1 40" in board.text("events"))
    with socket.create_connection(("127.0.0.1", port)) as office, office.makefile("r") as replies:
        office.sendall(b"cede 800 gala 7 1\nquit\n")
        replies.readline()
    until("a cession", lambda: "site 0, here \u2192 site 1: 7 seats" in board.text("events"))
    until("what each has then", lambda: "left at site 1 47" in board.text("events"))


def fills(board: Page, port: int, limit: int) -> None:
    """The board marks a history from nine tenths of its LIMIT on, and not before."""
    count = limit * 9 // 10

    def shows(entries: int) -> tuple[str, bool]:
        until(f"{entries} entries", lambda: f"history {entries} of {limit}" in board.text("more"))
        is_late = board.browser.execute_script("return document.getElementById('more').className") == "late"
        return board.text("more"), is_late

    with socket.create_connection(("127.0.0.1", port)) as office, office.makefile("r") as replies:
        office.sendall(b"left gala\n")
        replies.readline()
        entries = int(board.text("more").split()[1])
        for number in range(entries, count - 1):
            office.sendall(b"announce %d gala\n" % (900 + number))
            replies.readline()
        text, is_late = shows(count - 1)
        if is_late or "nearly full" in text:
            sys.exit(f"the board says of {count - 1} of {limit}: {text}")
        office.sendall(b"announce 900 gala\n")
        text, is_late = shows(count)
        if not is_late or "nearly full" not in text:
            sys.exit(f"the board says of {count} of {limit}: {text}")
    board.shot("web-board-full")


def tries(browser: webdriver.Chrome, url: str, passwords: dict[str, str], port: int, limit: int) -> int:
    """Gives how many sales were made."""
    till = Page(browser, url, "till-1", passwords["till-1"])
    for trial in (sells_each_once, holds_and_pays, is_loaded_again, has_tabs, refuses):
        trial(till)
    for width in WIDTHS:
        if not till.fits(width):
            sys.exit(f"the till's page scrolls sideways at {width} pixels")
        till.shot(f"web-till-{width}")
    left = till.text("left")
    browser.execute_cdp_cmd("Emulation.clearDeviceMetricsOverride", {})
    board = Page(browser, url, "anna", passwords["anna"])
    sold = 160 - int(left)
    until("the board has the sums", lambda: f"{sold} sold" in board.text("events"))
    shows_shares(board, port)
    time.sleep(1.5)
    board.shot("web-board")
    for width in WIDTHS:
        if not board.fits(width):
            sys.exit(f"the board scrolls sideways at {width} pixels")
    browser.execute_cdp_cmd("Emulation.clearDeviceMetricsOverride", {})
    fills(board, port, limit)
    for width in WIDTHS:
        if not board.fits(width):
            sys.exit(f"the board of a full history scrolls sideways at {width} pixels")
    return till.sales


def main() -> int:
    browser = started()
    try:
        print(tries(browser, sys.argv[1], json.loads(sys.argv[2]), int(sys.argv[3]), int(sys.argv[4])))
    except WebDriverException as error:
        if not is_gone(error):
            raise
        print(str(error).split("\n", maxsplit=1)[0], file=sys.stderr)
        return NO_BROWSER
    finally:
        browser.quit()
    return 0


if __name__ == "__main__":
    sys.exit(main())
