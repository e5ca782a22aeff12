"""Writes the page: one HTML file with all that it needs."""
from __future__ import annotations

import html
import os

from frames import packed_json
from watch import stamp_path

VIEW = os.path.join(os.path.dirname(os.path.abspath(__file__)), "view")
# In this order: a later file uses what an earlier one defines.
SCRIPTS = ["base.js", "store.js", "sentences.js", "virtual_list.js", "paint.js", "svg_scene.js", "canvas_scene.js", "overlay.js", "picture.js",
           "lanes.js", "lane_painter.js", "timeline.js", "panels.js", "header.js", "watch.js", "main.js"]


def view_file(name: str) -> str:
    """A file of the folder `view`."""
    with open(os.path.join(VIEW, name), encoding="utf-8") as f:
        return f.read()


def data_block(name: str, data: str) -> str:
    """Packed data, as a block that a browser doesn't read by itself. Base64 has no `<`, so it can't end the block."""
    return '<script type="application/octet-stream" id="%s">%s</script>\n' % (name, data)


def write_page(path: str, title: str, main: dict[str, object], groups: list[str], stamp: int | None = None) -> None:
    """Writes the page of a run, or of a text that is no script. A page with a stamp looks whether it was written again
    (watch.py)."""
    top, bottom = view_file("page.html").split("<!-- data -->\n")
    top = top.replace("<!-- title -->", html.escape(title)).replace("/* style */", view_file("style.css"))
    if stamp is not None:
        # the picture beside the page that it looks at
        top = top.replace("img-src data:", "img-src data: file:")
        main = main | {"stamp": stamp, "stampFile": os.path.basename(stamp_path(path))}
    code = "\n".join(view_file(name) for name in SCRIPTS)
    if "</script" in code.lower() or "</style" in top.lower().split("<style>")[1].split("</style>")[0]:
        raise ValueError("a file of the folder view would end its own block")
    # what isn't a file, such as a device, must not be replaced by one
    is_replaced = os.path.isfile(path) or not os.path.exists(path)
    with open(path + ".new" if is_replaced else path, "w", encoding="utf-8") as page:
        page.write(top)
        page.write(data_block("main", packed_json(main)))
        for number, group in enumerate(groups):
            page.write(data_block("items-%d" % number, group))
        page.write(bottom.replace("/* code */", code))
    if is_replaced:
        os.replace(page.name, path)
