"""Drives a browser with the page like a user, for web/page/play.py. Nobody trusts this file."""

import pathlib
import shutil
import time

from collections.abc import Callable, Sequence
from functools import partial
from selenium import webdriver
from selenium.webdriver.chrome.service import Service
from selenium.webdriver.common.action_chains import ActionChains
from selenium.webdriver.common.by import By
from selenium.webdriver.support.ui import Select, WebDriverWait
from typing import Any

PATIENCE = 120
# counts the modules that the page itself, and not its worker, instantiates
MADE = """window.made = 0;
WebAssembly.Instance = new Proxy(WebAssembly.Instance, { construct: (...words) => { made++; return Reflect.construct(...words); } });
WebAssembly.instantiate = new Proxy(WebAssembly.instantiate, { apply: (...words) => { made++; return Reflect.apply(...words); } });"""
HOST = "owner.test"  # a name of this machine that is not a secure context
CONTRAST = """
const number = (text) => (text.match(/[\\d.]+/g) ?? [0, 0, 0, 0]).map(Number);
const light = ([r, g, b]) => [r, g, b].map((c) => c / 255).map((c) => (c <= 0.04045 ? c / 12.92 : ((c + 0.055) / 1.055) ** 2.4)).reduce((sum, c, at) => sum + c * [0.2126, 0.7152, 0.0722][at], 0);
const ratio = (one, two) => { const [a, b] = [light(one), light(two)].sort((x, y) => y - x); return (a + 0.05) / (b + 0.05); };
const behind = (it) => { for (; it; it = it.parentElement) { const found = number(getComputedStyle(it).backgroundColor); if (found[3] !== 0) return found; } return [255, 255, 255]; };
const hasText = (it) => [...it.childNodes].some((node) => node.nodeType === 3 && node.data.trim()) || it.matches("input, select, button");
const texts = [...document.body.querySelectorAll("*")].filter((it) => hasText(it) && it.checkVisibility() && !it.matches("script, option"));
const drawn = getComputedStyle(document.getElementById("picture"));
const probe = document.body.appendChild(document.createElement("i"));
const lines = ["route", "leaf", "pair", "cell", "start", "end"].map((name) => { probe.style.color = drawn.getPropertyValue("--" + name); return [name, ratio(number(getComputedStyle(probe).color), behind(document.body))]; });
probe.remove();
return { texts: texts.map((it) => [it.tagName + " " + it.textContent.trim().slice(0, 30), ratio(number(getComputedStyle(it).color), behind(it))]), lines };
"""
# for each colour the number of its points in the drawing and their middle in pixels of the page; `faint` counts points
# of that colour drawn at 0.3
COLOURED = """
const canvas = document.getElementById("picture");
const { data, width } = canvas.getContext("2d").getImageData(0, 0, canvas.width, canvas.height);
const probe = document.body.appendChild(document.createElement("i"));
const found = {};
for (const name of ["route", "leaf", "pair", "cell", "grey", "start", "end", "outline", "lack", "band1", "band2", "band3", "band4", "band5"]) {
    probe.style.color = getComputedStyle(canvas).getPropertyValue("--" + name);
    const [r, g, b] = getComputedStyle(probe).color.match(/\\d+/g).map(Number);
    let [count, right, down, faint] = [0, 0, 0, 0];
    for (let at = 0; at < data.length; at += 4) {
        if (data[at] === r && data[at + 1] === g && data[at + 2] === b && data[at + 3] === 255) {
            count++;
            right += (at / 4) % width;
            down += Math.floor(at / 4 / width);
        }
        const isNear = [r, g, b].every((value, part) => Math.abs(data[at + part] - value) < 6);
        if (isNear && data[at + 3] > 60 && data[at + 3] < 100) faint++;
    }
    const dense = width / canvas.clientWidth;
    found[name] = { count, middle: count ? [right / count / dense, down / count / dense] : null, faint };
}
probe.remove();
return found;
"""
LONG = """window.longest = 0;
new PerformanceObserver((list) => list.getEntries().forEach((one) => { window.longest = Math.max(window.longest, one.duration); })).observe({ type: "longtask", buffered: true });"""


def chromium(saved: pathlib.Path | str) -> Any:
    """Starts a browser without a window that saves files into a folder."""
    options = webdriver.ChromeOptions()
    for word in (
        "--headless=new",
        "--no-sandbox",
        "--disable-dev-shm-usage",
        "--window-size=1280,1000",
        f"--host-resolver-rules=MAP {HOST} 127.0.0.1",
    ):
        options.add_argument(word)
    options.binary_location = shutil.which("chromium") or ""
    options.set_capability("goog:loggingPrefs", {"browser": "ALL"})
    driver = webdriver.Chrome(service=Service(shutil.which("chromedriver")), options=options)
    driver.set_page_load_timeout(PATIENCE)
    driver.set_script_timeout(PATIENCE)
    driver.execute_cdp_cmd("Browser.setDownloadBehavior", {"behavior": "allow", "downloadPath": str(saved)})
    return driver


# the state of the verdict, its text, and the line below
Said = tuple[str, str, str]


class Used:
    """The page in a browser."""

    def __init__(self, driver: Any, saved: pathlib.Path | str) -> None:
        self.driver, self.saved = driver, pathlib.Path(saved)

    def open(self, address: str, waits: bool = True) -> None:
        self.driver.get(address)
        if waits:
            self.until(
                lambda: self.driver.execute_script("return performance.getEntriesByName('ready').length > 0")
                or self.state()[0] == "failed"
            )

    def until(self, test: Callable[[], object]) -> None:
        WebDriverWait(self.driver, PATIENCE, 0.05).until(lambda _: test())

    def find(self, selector: str) -> Any:
        return self.driver.find_element(By.CSS_SELECTOR, selector)

    def state(self) -> Said:
        """The state of the verdict, its text, and the line below."""
        state, text, line = self.driver.execute_script(
            "const it = document.getElementById('verdict'); return [it.dataset.state, it.innerText, it.querySelector('code')?.innerText ?? ''];"
        )
        return state, text, line

    def settled(self) -> Said:
        self.until(lambda: self.find("#verdict").get_attribute("aria-busy") == "false")
        return self.state()

    def fill(self, selector: str, text: object) -> None:
        self.driver.execute_script("arguments[0].value = arguments[1]", self.find(selector), str(text))

    def ask(self, ask: str, start: object, end: object, version: int | None = None) -> Said:
        """Asks for a route or for a radius, a text such as `1.5`, over the newest map or a given version."""
        self.driver.execute_script("arguments[0].click()", self.find(f"[name=ask][value={ask}]"))
        self.fill("[name=from]", start)
        self.fill("[name=to]" if ask == "route" else "[name=radius]", end)
        if version is not None:
            self.until(partial(self.maps, version))
        self.driver.execute_script(
            "arguments[0].value = arguments[1]", self.find("[name=map]"), self.maps(version)[0] if version else ""
        )
        self.driver.execute_script("arguments[0].requestSubmit()", self.find("#question"))
        return self.settled()

    def maps(self, version: int) -> list[str]:
        """The ids of the maps of a version that the page offers."""
        options = self.driver.execute_script(
            "return [...document.querySelectorAll('[name=map] option')].map((it) => [it.value, it.text])"
        )
        return [name for name, text in options if text.startswith(f"version {version},")]

    def has_map(self) -> bool:
        """Whether the page has loaded everything that it fetches after the first request."""
        return (
            bool(self.driver.execute_script("return document.querySelectorAll('[name=map] option').length > 1"))
            and self.coloured()["grey"] > 0
        )

    def has_streets(self) -> bool:
        """Whether the page has loaded the owner's table, which it fetches after the first request."""
        self.fill("[name=from]", "e")
        self.driver.execute_script(
            "arguments[0].dispatchEvent(new Event('input', { bubbles: true }))", self.find("[name=from]")
        )
        found: bool = self.driver.execute_script("return document.querySelectorAll('#offers option').length > 0")
        return found

    def lies(self) -> list[str]:
        self.until(
            lambda: self.driver.execute_script("return document.querySelectorAll('[name=lie] option').length > 0")
        )
        found: list[str] = self.driver.execute_script(
            "return [...document.querySelectorAll('[name=lie] option')].map((it) => it.value)"
        )
        return found

    def lie(self, name: str) -> Said:
        Select(self.find("[name=lie]")).select_by_value(name)
        self.driver.execute_script("arguments[0].requestSubmit()", self.find("#lie"))
        return self.settled()

    def facts(self) -> dict[str, str]:
        return dict(
            self.driver.execute_script(
                "return [...document.querySelectorAll('dt')].map((it) => [it.innerText, it.nextElementSibling.innerText])"
            )
        )

    def listed(self) -> list[str]:
        """All nodes of the verdict; it opens their fold."""
        self.driver.execute_script("document.getElementById('all').open = true")
        self.until(
            lambda: self.driver.execute_script(
                "return document.getElementById('nodes').textContent !== '' || document.getElementById('all').hidden"
            )
        )
        text = self.driver.execute_script("return document.getElementById('nodes').textContent")
        self.driver.execute_script("document.getElementById('all').open = false")
        return str(text).split("\n")

    def ids(self) -> list[int]:
        """The ids of these nodes."""
        return [int(line.partition(",")[0]) for line in self.listed()]

    def rows(self, selector: str) -> list[list[str]]:
        """The texts of the parts of some elements."""
        found: list[list[str]] = self.driver.execute_script(
            "return [...document.querySelectorAll(arguments[0])].map((it) => [...it.children].map((part) => part.textContent))",
            selector,
        )
        return found

    def text(self, selector: str) -> str:
        found: str = self.driver.execute_script("return document.querySelector(arguments[0]).textContent", selector)
        return found

    def shown(self, selector: str) -> bool:
        """Whether an element is visible on the page, at any scroll position."""
        found: bool = self.driver.execute_script(
            "return document.querySelector(arguments[0]).checkVisibility()", selector
        )
        return found

    def shown_any(self, selector: str) -> bool:
        """Whether a visible element matches."""
        found: bool = self.driver.execute_script(
            "return [...document.querySelectorAll(arguments[0])].some((it) => it.checkVisibility())", selector
        )
        return found

    def in_view(self, selector: str) -> bool:
        """Whether an element is completely on the screen."""
        found: bool = self.driver.execute_script(
            "const it = document.querySelector(arguments[0]); const box = it.getBoundingClientRect();"
            " return it.checkVisibility() && box.top >= 0 && box.left >= 0 && box.bottom <= innerHeight && box.right <= innerWidth;",
            selector,
        )
        return found

    def saves(self, text: str, name: str) -> bytes:
        """The octets of a file that the page offers."""
        file = self.saved / name
        file.unlink(missing_ok=True)
        link = next(one for one in self.driver.find_elements(By.CSS_SELECTOR, "#downloads a") if one.text == text)
        self.driver.execute_script("arguments[0].click()", link)
        until = time.monotonic() + PATIENCE
        while not (file.exists() and file.stat().st_size):
            assert time.monotonic() < until, f"{name} was not saved"
            time.sleep(0.02)
        return file.read_bytes()

    def tap(self, right: float, down: float) -> None:
        """Taps the picture, at this offset from its middle."""
        ActionChains(self.driver).move_to_element_with_offset(self.find("#picture"), right, down).click().perform()

    def place(self, right: float, down: float) -> tuple[float, float]:
        """The place on the screen at this offset from the drawing's middle."""
        box = self.driver.execute_script(
            "const box = document.getElementById('picture').getBoundingClientRect(); return [box.left + box.width / 2, box.top + box.height / 2];"
        )
        return box[0] + right, box[1] + down

    def wheel(self, turned: float, right: float = 0, down: float = 0) -> None:
        x, y = self.place(right, down)
        self.driver.execute_cdp_cmd(
            "Input.dispatchMouseEvent", {"type": "mouseWheel", "x": x, "y": y, "deltaX": 0, "deltaY": turned}
        )

    def drag(self, right: float, down: float) -> None:
        ActionChains(self.driver).move_to_element(self.find("#picture")).click_and_hold().move_by_offset(
            right, down
        ).release().perform()

    def touch(self, *steps: Sequence[tuple[float, float]]) -> None:
        """Touches with fingers. Each step has the places of all fingers, relative to the drawing's middle."""
        for kind, places in zip(["touchStart", *["touchMove"] * (len(steps) - 1), "touchEnd"], [*steps, []]):
            told = [
                {"x": x, "y": y, "id": finger} for finger, (x, y) in enumerate(self.place(*place) for place in places)
            ]
            self.driver.execute_cdp_cmd("Input.dispatchTouchEvent", {"type": kind, "touchPoints": told})

    def colours(self) -> dict[str, Any]:
        """The result of COLOURED for each colour."""
        found: dict[str, Any] = self.driver.execute_script(COLOURED)
        return found

    def coloured(self) -> dict[str, int]:
        """The number of points of each colour."""
        return {name: one["count"] for name, one in self.colours().items()}

    def marks(self) -> tuple[list[float], list[float]]:
        """The places where both ends are drawn."""
        self.driver.execute_async_script("requestAnimationFrame(() => requestAnimationFrame(arguments[0]))")
        seen = self.colours()
        return seen["start"]["middle"], seen["end"]["middle"]

    def contrasts(self) -> dict[str, Any]:
        found: dict[str, Any] = self.driver.execute_script(CONTRAST)
        return found

    def shape(self, width: int, height: int, dense: float = 1, mobile: bool = False) -> None:
        self.driver.execute_cdp_cmd(
            "Emulation.setDeviceMetricsOverride",
            {"width": width, "height": height, "deviceScaleFactor": dense, "mobile": mobile},
        )

    def media(self, kind: str = "", **features: str) -> None:
        told = [{"name": name.replace("_", "-"), "value": value} for name, value in features.items()]
        self.driver.execute_cdp_cmd("Emulation.setEmulatedMedia", {"media": kind, "features": told})

    def faults(self) -> list[str]:
        """The errors on the console since the last call."""
        return [one["message"] for one in self.driver.get_log("browser") if one["level"] == "SEVERE"]

    def shot(self, file: pathlib.Path) -> None:
        self.driver.execute_script("scrollTo(0, 0); document.activeElement.blur()")
        self.driver.save_screenshot(str(file))
