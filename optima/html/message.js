"use strict";
// What the page says, at the window's edge in each view, until the reader closes it.
const message = document.getElementById("message");
let saidOfLink = false;

/** Says a text in the place of what was said before. */
function say(text, {isFault = false, ofLink = false} = {}) {
  const close = element("button", {type: "button", "aria-label": "Close this message"}, "\u00d7");
  close.addEventListener("click", unsay);
  const said = element("p", {id: "said", class: isFault ? "fault" : ""}, text);
  message.replaceChildren(element("div", {class: "message"}, said, close));
  saidOfLink = ofLink;
}

function unsay() {
  message.replaceChildren();
  saidOfLink = false;
}

addEventListener("keydown", (event) => { if (event.key === "Escape") unsay(); });
