// Brings the gateway's page up to date every two seconds, and says so if the gateway does not
// answer.
"use strict";

const EVERY = 2000; // milliseconds

function show(page) {
    document.querySelector("main").replaceWith(document.adoptNode(page.querySelector("main")));
}

function lost() {
    const condition = document.querySelector(".condition");
    condition.className = "condition fault";
    condition.textContent = "The gateway does not answer: what stands below is old.";
}

function ask() {
    const request = new XMLHttpRequest();
    request.responseType = "document";
    request.timeout = EVERY;
    request.onload = () => (request.status === 200 && request.response ? show(request.response) : lost());
    request.onerror = request.ontimeout = lost;
    request.onloadend = () => setTimeout(ask, EVERY);
    request.open("GET", "/");
    request.send();
}

setTimeout(ask, EVERY);
