"use strict";
const field = (id) => document.getElementById(id);

field("form").addEventListener("submit", async (event) => {
  event.preventDefault();
  try {
    const reply = await fetch("/login", {
      method: "POST",
      headers: { "Content-Type": "application/json" },
      body: JSON.stringify({ name: field("name").value, password: field("password").value }),
    });
    const body = await reply.json();
    if (reply.ok) location.replace(body.to);
    else field("said").textContent = body.error;
  } catch {
    field("said").textContent = "The gateway does not answer.";
  }
});
