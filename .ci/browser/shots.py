"""The screenshots of the documents: a picture with its edits at three sizes, and a script with its image."""
import base64

SCRIPT = """image 4 3 6 1 2 3 4 0 0 5 6 7 8 0 0 9 10 11 12
get 0 1,0,3,3/1,1,2,2 0 1
fill 0 1,0,3,2 7
count 0 - 7
compact 0
"""


EDITS = "means 160,196,130,130 26,26\nfill 588,446,144,42 0"
# The windows: their width and height, and how many pixels of the screen one of theirs has.
WINDOWS = {"web.png": (1280, 720, 1), "web_phone.png": (360, 740, 1), "web_large.png": (640, 360, 2)}
# The window in which the preview is shown too, and its file.
PREVIEWS = {"web_phone.png": "web_preview.png"}


def resize(page, width, height, factor):
    page.browser.devtools(
        "Emulation.setDeviceMetricsOverride", width=width, height=height, deviceScaleFactor=factor,
        mobile=False
    )


def take(page, folder):
    """Writes the screenshots."""
    for name, window in WINDOWS.items():
        resize(page, *window)
        page.start()
        page.give("street.png", base64.b64decode(page.browser.wait_for("scene")))
        page.apply(EDITS)
        page.browser.run(
            "document.querySelector('#edits li:nth-child(2) button').click();"
            "document.querySelector('details:has(#text)').open = false;"
            "document.getElementById('side').scrollTo(0, 0)"
        )
        (folder / name).write_bytes(page.browser.screenshot())
        if name in PREVIEWS:
            page.preview()
            (folder / PREVIEWS[name]).write_bytes(page.browser.screenshot())
    resize(page, 1120, 720, 1)
    page.start("layout.html")
    page.browser.change("script", SCRIPT)
    page.browser.click("#next")
    (folder / "web_layout.png").write_bytes(page.browser.screenshot())
