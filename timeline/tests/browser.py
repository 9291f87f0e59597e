"""Opens a page in headless Chromium."""
import importlib.util
import pathlib
import shutil
import subprocess
import sys
import tempfile
import time

FOLDER = pathlib.Path(__file__).resolve().parent
PROGRAM = FOLDER.parent / "clreplay-timeline"
PICTURES = FOLDER.parent / "out"
FOUND_BY = {"chromium": "chromium", "chromium-driver": "chromedriver"}


def lacks():
    """The Debian packages that are missing."""
    lacking = [package for package, program in FOUND_BY.items() if not shutil.which(program)]
    return lacking + ([] if importlib.util.find_spec("selenium") else ["python3-selenium"])


class Browser:
    """A browser with one page open, which is made of a trace; it has no network."""

    def __init__(self, size="1500,1000"):
        from selenium import webdriver
        from selenium.webdriver.chrome.service import Service
        self.folder = tempfile.TemporaryDirectory()
        options = webdriver.ChromeOptions()
        options.binary_location = shutil.which("chromium")
        for word in ("--headless=new", "--no-sandbox", "--disable-gpu", "--disable-dev-shm-usage", f"--window-size={size}",
                     "--host-resolver-rules=MAP * ~NOTFOUND", f"--user-data-dir={self.folder.name}/profile"):
            options.add_argument(word)
        options.set_capability("goog:loggingPrefs", {"browser": "ALL"})
        self.driver = webdriver.Chrome(service=Service(shutil.which("chromedriver")), options=options)
        self.driver.set_script_timeout(60)

    def open(self, trace, schedule=None):
        """Makes the page and opens it; the seconds that the opening took, up to the first picture."""
        page = pathlib.Path(self.folder.name) / "page.html"
        words = ["--schedule", schedule] if schedule else []
        with open(page, "wb") as target:
            subprocess.run([sys.executable, PROGRAM, *words, trace], stdout=target, stderr=subprocess.DEVNULL, check=True)
        began = time.monotonic()
        self.driver.get(page.as_uri())
        self.settle()
        return time.monotonic() - began

    def run(self, script, *words):
        return self.driver.execute_script(script, *words)

    def settle(self):
        """Waits until what was asked for is drawn."""
        self.driver.execute_async_script(
            "const done = arguments[0]; requestAnimationFrame(() => requestAnimationFrame(() => done()));")

    def text(self, selector):
        """The text of an element, or None."""
        return self.run("const found = document.querySelector(arguments[0]); return found && found.textContent;", selector)

    def click(self, selector):
        from selenium.webdriver.common.by import By
        self.driver.find_element(By.CSS_SELECTOR, selector).click()
        self.settle()

    def click_drawing(self, x, y):
        """Clicks at a point of the drawing, counted from its upper left corner."""
        from selenium.webdriver.common.action_chains import ActionChains
        from selenium.webdriver.common.by import By
        drawing = self.driver.find_element(By.ID, "drawing")
        size = drawing.size
        ActionChains(self.driver).move_to_element_with_offset(
            drawing, round(x - size["width"] / 2), round(y - size["height"] / 2)).click().perform()
        self.settle()

    def drag_drawing(self, right, down):
        """Drags the drawing by so many pixels."""
        from selenium.webdriver.common.action_chains import ActionChains
        from selenium.webdriver.common.by import By
        ActionChains(self.driver).move_to_element(self.driver.find_element(By.ID, "drawing")).click_and_hold() \
            .move_by_offset(right // 2, down // 2).move_by_offset(right - right // 2, down - down // 2).release().perform()
        self.settle()

    def turn_wheel(self, down):
        """Turns the wheel in the middle of the drawing."""
        from selenium.webdriver.common.action_chains import ActionChains
        from selenium.webdriver.common.actions.wheel_input import ScrollOrigin
        from selenium.webdriver.common.by import By
        origin = ScrollOrigin.from_element(self.driver.find_element(By.ID, "drawing"))
        ActionChains(self.driver).scroll_from_origin(origin, 0, down).perform()
        self.settle()

    def press(self, keys):
        from selenium.webdriver.common.action_chains import ActionChains
        ActionChains(self.driver).send_keys(keys).perform()
        self.settle()

    def errors(self):
        return [entry["message"] for entry in self.driver.get_log("browser") if entry["level"] == "SEVERE"]

    def picture(self, name):
        PICTURES.mkdir(exist_ok=True)
        self.driver.save_screenshot(str(PICTURES / name))

    def close(self):
        self.driver.quit()
        self.folder.cleanup()
