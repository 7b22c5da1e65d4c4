"""A browser without a window, told what to do by its own protocol: a telephone, the dark, paper, no script, and what a
screen reader gets."""
from __future__ import annotations

import base64
import json
import os
import select
import subprocess
import tempfile
import time
from contextlib import contextmanager
from typing import Any, Dict, Iterator, List, Optional, Set, Tuple

from support.indexctl.page import browser

PATIENCE = 60
# each text, and each field, with its contrast to what is behind it (WCAG 2), if that is below a bound
CONTRASTS = """(function (bound) {
  function parts(colour) { return colour.match(/[\\d.]+/g).map(Number); }
  function light(colour) {
    var c = colour.slice(0, 3).map(function (it) {
      it = it / 255; return it <= 0.04045 ? it / 12.92 : Math.pow((it + 0.055) / 1.055, 2.4);
    });
    return 0.2126 * c[0] + 0.7152 * c[1] + 0.0722 * c[2];
  }
  function behind(node) {
    for (; node; node = node.parentElement) {
      var colour = parts(getComputedStyle(node).backgroundColor);
      if (colour.length === 3 || colour[3] === 1) { return colour; }
    }
    return [255, 255, 255];
  }
  function ratio(one, other) {
    var a = light(parts(one)), b = light(other);
    return (Math.max(a, b) + 0.05) / (Math.min(a, b) + 0.05);
  }
  var found = [], seen = 0, walk = document.createTreeWalker(document.body, NodeFilter.SHOW_TEXT);
  while (walk.nextNode()) {
    var node = walk.currentNode.parentElement;
    if (!walk.currentNode.data.trim() || node.closest("script, style, [hidden]")) { continue; }
    var has = ratio(getComputedStyle(node).color, behind(node));
    seen += 1;
    if (has < bound) { found.push(walk.currentNode.data.trim().slice(0, 40) + " " + has.toFixed(2)); }
  }
  // a field: what stands in it until something is typed, and its border, which needs less
  document.querySelectorAll("input:not([hidden])").forEach(function (field) {
    var told = ratio(getComputedStyle(field, "::placeholder").color, behind(field));
    var border = ratio(getComputedStyle(field).borderTopColor, behind(field.parentElement));
    seen += 2;
    if (told < bound || border < 3) { found.push("field " + told.toFixed(2) + " " + border.toFixed(2)); }
  });
  return {seen: seen, found: found};
})(4.5)"""

# each word of at most so many letters that stands on two lines; a file's name may be parted at its hyphens
BROKEN_WORDS = """(function (most) {
  var found = [], seen = 0, walk = document.createTreeWalker(document.body, NodeFilter.SHOW_TEXT);
  while (walk.nextNode()) {
    if (walk.currentNode.parentElement.closest("script, style, [hidden]")) { continue; }
    for (var word of walk.currentNode.data.matchAll(/[\\w.]+/g)) {
      if (word[0].length > most) { continue; }
      var range = document.createRange();
      range.setStart(walk.currentNode, word.index);
      range.setEnd(walk.currentNode, word.index + word[0].length);
      seen += 1;
      if (range.getClientRects().length > 1) { found.push(word[0]); }
    }
  }
  return {seen: seen, found: found};
})(%d)"""
# how wide a page is looked at, and the letters of the longest word that is not broken then: the longest id of a user on
# a screen of a desk and on a telephone; on a tablet and on paper, where tables have little room, half as many
WIDTHS = [({}, 32), ({"wide": 390, "is_telephone": True}, 32), ({"wide": 700}, 16), ({"wide": 900}, 16),
          ({"wide": 718, "media": "print"}, 16)]


class Page:
    """One page of a browser. `console` has what it complained of, and `asked` each address that it asked for."""

    def __init__(self, process: subprocess.Popen[bytes], to: int, back: int) -> None:
        self.process, self.to, self.back, self.rest, self.last = process, to, back, b"", 0
        self.session: Optional[str] = None
        self.events: List[Dict[str, Any]] = []
        target = self.call("Target.createTarget", url="about:blank")["targetId"]
        self.session = self.call("Target.attachToTarget", targetId=target, flatten=True)["sessionId"]
        for domain in ("Page", "Runtime", "Log", "Network", "Accessibility"):
            self.call(f"{domain}.enable")

    def read(self, until: float) -> Dict[str, Any]:
        """The next message of the browser."""
        while b"\0" not in self.rest:
            if not select.select([self.back], [], [], max(0.0, until - time.monotonic()))[0]:
                raise AssertionError(f"the browser says nothing in {PATIENCE} s")
            more = os.read(self.back, 1 << 20)
            if not more:
                raise AssertionError("the browser has ended")
            self.rest += more
        text, _, self.rest = self.rest.partition(b"\0")
        found: Dict[str, Any] = json.loads(text)
        return found

    def call(self, method: str, **given: object) -> Dict[str, Any]:
        """What the browser gives for a method of its protocol."""
        self.last += 1
        asked = {"id": self.last, "method": method, "params": given}
        asked.update({"sessionId": self.session} if self.session else {})
        os.write(self.to, json.dumps(asked).encode() + b"\0")
        until = time.monotonic() + PATIENCE
        while True:
            found = self.read(until)
            if found.get("id") == self.last:
                assert "error" not in found, found
                result: Dict[str, Any] = found["result"]
                return result
            self.events.append(found)

    def go(self, url: str) -> None:
        """Opens an address, and waits until it is loaded."""
        self.events.clear()
        self.call("Page.navigate", url=url)
        until = time.monotonic() + PATIENCE
        while not self.those("Page.loadEventFired"):
            self.events.append(self.read(until))

    def those(self, method: str) -> List[Dict[str, Any]]:
        return [it["params"] for it in self.events if it.get("method") == method]

    def value(self, script: str) -> Any:
        """What a script gives, run beside those of the page."""
        found = self.call("Runtime.evaluate", expression=script, returnByValue=True)
        assert "exceptionDetails" not in found, found
        return found["result"].get("value")

    def text(self) -> str:
        """The text that a person sees."""
        return str(self.value("document.body.innerText"))

    def until(self, script: str) -> bool:
        """Waits until a script says true, and then says so."""
        until = time.monotonic() + PATIENCE
        while not self.value(script):
            if time.monotonic() > until:
                return False
            time.sleep(0.02)
        return True

    @property
    def asked(self) -> List[str]:
        urls = [it["request"]["url"] for it in self.those("Network.requestWillBeSent")]
        return [it for it in urls if not it.startswith("data:")]

    def received(self) -> Set[str]:
        """The addresses that were really asked, and not held back by a policy."""
        urls = {it["requestId"]: it["request"]["url"] for it in self.those("Network.requestWillBeSent")}
        held = {it["requestId"] for it in self.those("Network.loadingFailed") if it.get("blockedReason")}
        # the browser's own page in the place of what was held back has images in itself
        return {url for key, url in urls.items() if key not in held and not url.startswith("data:")}

    @property
    def console(self) -> List[str]:
        self.value("0")
        logged = [str(it["entry"]["text"]) for it in self.those("Log.entryAdded")]
        return logged + [str(it) for it in self.those("Runtime.exceptionThrown")]

    def look(self, wide: int = 1280, scheme: str = "light", media: str = "", is_telephone: bool = False) -> None:
        """How the page is looked at from now on."""
        self.call("Emulation.setDeviceMetricsOverride", width=wide, height=900, deviceScaleFactor=1,
                  mobile=is_telephone)
        self.call("Emulation.setEmulatedMedia", media=media,
                  features=[{"name": "prefers-color-scheme", "value": scheme}])

    def picture(self, path: str) -> str:
        """Writes a picture of what fits a window."""
        found = self.call("Page.captureScreenshot", format="png")
        with open(path, "wb") as made:
            made.write(base64.b64decode(found["data"]))
        return path

    def spoken(self) -> List[Tuple[str, str]]:
        """The roles and names that a screen reader gets, in their order."""
        nodes = self.call("Accessibility.getFullAXTree")["nodes"]
        return [(it.get("role", {}).get("value", ""), it.get("name", {}).get("value", "")) for it in nodes
                if not it.get("ignored")]

    def settled(self) -> None:
        """Waits until what a script has changed is drawn."""
        script = "new Promise(d => requestAnimationFrame(() => requestAnimationFrame(() => setTimeout(d, 0))))"
        self.call("Runtime.evaluate", expression=script, awaitPromise=True)

    def spent(self) -> float:
        """The seconds that a processor has worked for this page so far, without those in which others had it. Without
        what a screen reader would get: to keep that takes several times as long, and few have one."""
        self.call("Accessibility.disable")
        self.call("Performance.enable", timeDomain="threadTicks")
        found = {it["name"]: it["value"] for it in self.call("Performance.getMetrics")["metrics"]}
        return float(found["TaskDuration"])

    def press(self, key: str) -> None:
        for kind in ("keyDown", "keyUp"):
            self.call("Input.dispatchKeyEvent", type=kind, key=key, code=key,
                      windowsVirtualKeyCode={"Tab": 9, "Enter": 13}[key])

    def type(self, text: str) -> None:
        self.call("Input.insertText", text=text)


@contextmanager
def opened() -> Iterator[Page]:
    """A page of a new browser, with an empty home. It takes each certificate."""
    (its_in, to), (back, its_out) = os.pipe(), os.pipe()
    with tempfile.TemporaryDirectory(ignore_cleanup_errors=True) as home:
        # the browser reads its descriptor 3 and writes to 4
        words = ["bash", "-c", f'exec "$@" 3<&{its_in} 4>&{its_out}', "bash", browser(), "--headless=new",
                 "--no-sandbox", "--disable-gpu", "--ignore-certificate-errors", "--remote-debugging-pipe",
                 f"--user-data-dir={home}/browser"]
        process = subprocess.Popen(words, stdin=subprocess.DEVNULL, stdout=subprocess.DEVNULL,
                                   stderr=subprocess.DEVNULL, pass_fds=(its_in, its_out),
                                   env={**os.environ, "HOME": home})
        os.close(its_in)
        os.close(its_out)
        try:
            yield Page(process, to, back)
        finally:
            os.close(to)
            os.close(back)
            process.terminate()
            try:
                process.wait(timeout=10)
            except subprocess.TimeoutExpired:
                process.kill()
                process.wait(timeout=60)
