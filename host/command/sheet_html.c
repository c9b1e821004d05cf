/* The sheets as one page for a browser, which needs no network: the drawing
 * itself, and a script to move and enlarge it, to find a point and to tell of
 * it. Printed, the page is the sheets. */
#include "picture.h"
#include "svg.h"

#include <string.h>

static const char *const style[] = {
    "html, body { margin: 0; height: 100%; font: 15px \"DejaVu Sans\","
    " Verdana, sans-serif; color: #222; }\n",
    "#ui { position: fixed; z-index: 2; top: 0; left: 0; right: 0;"
    " height: 44px; display: flex; gap: 8px; align-items: center;\n",
    "  padding: 0 10px; background: #f2f4f6; border-bottom: 1px solid"
    " #5a6872; }\n",
    "#ui b { overflow: hidden; white-space: nowrap; text-overflow:"
    " ellipsis; flex: 1 1 auto; }\n",
    "#ui input, #ui button, #ui select { font: inherit; height: 32px; }\n",
    "#ui-find { width: 11em; }\n",
    "#ui-view { position: fixed; top: 45px; bottom: 0; left: 0; right:"
    " 0; overflow: hidden; background: #9aa4ad; touch-action: none;\n",
    "  cursor: grab; user-select: none; -webkit-user-select: none; }\n",
    ".sheet { display: none; position: absolute; transform-origin: 0 0; }\n",
    ".sheet.on { display: block; }\n",
    ".sheet text { white-space: pre; }\n",
    ".sheet svg { display: block; box-shadow: 0 0 12px #555; }\n",
    "[data-p] { cursor: pointer; }\n",
    "#ui-card { position: fixed; z-index: 2; right: 10px; top: 55px;"
    " width: 21em; max-width: 85%; max-height: 75%; overflow: auto;\n",
    "  padding: 8px 12px; background: #fff; border: 1px solid #5a6872;"
    " display: none; overflow-wrap: anywhere; }\n",
    "#ui-card.on { display: block; }\n",
    "#ui-card h1 { font-size: 17px; margin: 2px 0 6px; }\n",
    "#ui-card h2 { font-size: 14px; margin: 10px 0 2px; }\n",
    "#ui-card p { margin: 2px 0; }\n",
    "#ui-card button { float: right; }\n",
    ".found { fill: none; stroke: #d81b60; stroke-width: 0.7; }\n",
};

static const char *const script[] = {
    "\"use strict\";\n",
    "const data ="
    " JSON.parse(document.getElementById(\"ui-data\").textContent);\n",
    "const view = document.getElementById(\"ui-view\"), find ="
    " document.getElementById(\"ui-find\");\n",
    "const card = document.getElementById(\"ui-card\"), pick ="
    " document.getElementById(\"ui-sheet\");\n",
    "const sheets = Array.from(document.querySelectorAll(\".sheet\"));\n",
    "let on = 0, x = 0, y = 0, k = 1;\n",
    "function show() {\n",
    "  sheets.forEach((s, i) => s.classList.toggle(\"on\", i === on));\n",
    "  sheets[on].style.transform = `translate(${x}px, ${y}px)"
    " scale(${k})`;\n",
    "  pick.value = String(on);\n",
    "}\n",
    "/* The whole sheet in the window. */\n",
    "function fit() {\n",
    "  const s = sheets[on];\n",
    "  k = 1; x = y = 0; show();\n",
    "  k = Math.min(view.clientWidth / s.offsetWidth, view.clientHeight"
    " / s.offsetHeight) * 0.98;\n",
    "  x = (view.clientWidth - s.offsetWidth * k) / 2;\n",
    "  y = (view.clientHeight - s.offsetHeight * k) / 2;\n",
    "  show();\n",
    "}\n",
    "function zoom(times, at_x, at_y) {\n",
    "  const next = Math.min(Math.max(k * times, 0.1), 40);\n",
    "  x = at_x - (at_x - x) * next / k;\n",
    "  y = at_y - (at_y - y) * next / k;\n",
    "  k = next;\n",
    "  show();\n",
    "}\n",
    "/* Pixels of a millimetre at no zoom. */\n",
    "const unit = s => s.offsetWidth /"
    " s.querySelector(\"svg\").viewBox.baseVal.width;\n",
    "function place(mark) {\n",
    "  const t = /translate\\(([-0-9.]+)"
    " ([-0-9.]+)\\)/.exec(mark.getAttribute(\"transform\"));\n",
    "  return t && { x: +t[1], y: +t[2] };\n",
    "}\n",
    "const marks = [];\n",
    "sheets.forEach((s, sheet) =>"
    " s.querySelectorAll(\"g[data-p]\").forEach(g => {\n",
    "  const at = place(g);\n",
    "  if (at) marks.push({ sheet, p: +g.dataset.p, x: at.x, y: at.y,"
    " faint: g.hasAttribute(\"opacity\") });\n",
    "}));\n",
    "function ring(m) {\n",
    "  document.querySelectorAll(\".found\").forEach(e => e.remove());\n",
    "  if (!m) return;\n",
    "  const c ="
    " document.createElementNS(\"http://www.w3.org/2000/svg\", \"circle\");\n",
    "  c.setAttribute(\"class\", \"found\");\n",
    "  c.setAttribute(\"cx\", m.x); c.setAttribute(\"cy\", m.y);"
    " c.setAttribute(\"r\", 3.2);\n",
    "  sheets[m.sheet].querySelector(\"svg\").append(c);\n",
    "}\n",
    "function line(tag, words) {\n",
    "  const e = document.createElement(tag);\n",
    "  e.textContent = words;\n",
    "  card.append(e);\n",
    "}\n",
    "function tell(p) {\n",
    "  const d = data[p];\n",
    "  card.textContent = \"\";\n",
    "  const close = document.createElement(\"button\");\n",
    "  close.textContent = \"close\";\n",
    "  close.onclick = () => { card.classList.remove(\"on\");"
    " ring(null); };\n",
    "  card.append(close);\n",
    "  line(\"h1\", d.name);\n",
    "  if (d.fields)\n",
    "    [\"easting\", \"northing\", \"height\", \"note\"].forEach((w,"
    " i) => { if (d.fields[i]) line(\"p\", w + \": \" + d.fields[i]); });\n",
    "  else if (d.text !== undefined) line(\"p\", d.text === \"\" ? \"an"
    " empty text\" : d.text);\n",
    "  else line(\"p\", d.gone ? \"gone\" : \"no text\");\n",
    "  if (d.became) line(\"p\", d.became);\n",
    "  if (d.old !== undefined) { line(\"h2\", \"before\"); line(\"p\","
    " d.old); }\n",
    "  if (d.log) {\n",
    "    line(\"h2\", \"history\");\n",
    "    d.log.forEach(e => line(\"p\", e));\n",
    "  }\n",
    "  if (!marks.some(m => m.p === p)) line(\"p\", \"no place on the"
    " plan\");\n",
    "  card.classList.add(\"on\");\n",
    "}\n",
    "/* Goes to a point: on the sheet that names it. */\n",
    "function go(p) {\n",
    "  const all = marks.filter(m => m.p === p);\n",
    "  const m = all.find(a => !a.faint && a.sheet > 0 &&"
    " data[p].detail) || all.find(a => !a.faint) || all[0];\n",
    "  tell(p);\n",
    "  ring(m);\n",
    "  if (!m) return;\n",
    "  if (on !== m.sheet) { on = m.sheet; fit(); }\n",
    "  const u = unit(sheets[on]);\n",
    "  k = Math.max(k, 3 * 3.78 / u);\n",
    "  x = view.clientWidth / 2 - m.x * u * k;\n",
    "  y = view.clientHeight / 2 - m.y * u * k;\n",
    "  show();\n",
    "}\n",
    "function search() {\n",
    "  const word = find.value.trim().toLowerCase();\n",
    "  if (word === \"\") return;\n",
    "  const names = data.map(d => d.name.toLowerCase());\n",
    "  let p = names.indexOf(word);\n",
    "  if (p < 0) p = names.findIndex(n => n.startsWith(word));\n",
    "  if (p < 0) p = names.findIndex(n => n.includes(word));\n",
    "  find.setCustomValidity(p < 0 ? \"no such point\" : \"\");\n",
    "  find.reportValidity();\n",
    "  if (p >= 0) go(p);\n",
    "}\n",
    "/* Fingers and the mouse: one moves the sheet, two zoom it, a short"
    " touch tells of a point. */\n",
    "const down = new Map();\n",
    "let moved = 0, apart = 0;\n",
    "view.addEventListener(\"pointerdown\", e => {\n",
    "  down.set(e.pointerId, e);\n",
    "  if (down.size === 1) moved = 0;\n",
    "  apart = 0;\n",
    "  view.setPointerCapture(e.pointerId);\n",
    "});\n",
    "view.addEventListener(\"pointermove\", e => {\n",
    "  const last = down.get(e.pointerId);\n",
    "  if (!last) return;\n",
    "  down.set(e.pointerId, e);\n",
    "  moved += Math.hypot(e.clientX - last.clientX, e.clientY -"
    " last.clientY);\n",
    "  if (down.size === 1) {\n",
    "    x += e.clientX - last.clientX;\n",
    "    y += e.clientY - last.clientY;\n",
    "    show();\n",
    "  } else if (down.size === 2) {\n",
    "    const [a, b] = Array.from(down.values());\n",
    "    const now = Math.hypot(a.clientX - b.clientX, a.clientY -"
    " b.clientY);\n",
    "    const box = view.getBoundingClientRect();\n",
    "    if (apart > 0) zoom(now / apart, (a.clientX + b.clientX) / 2 -"
    " box.left, (a.clientY + b.clientY) / 2 - box.top);\n",
    "    apart = now;\n",
    "  }\n",
    "});\n",
    "function up(e) {\n",
    "  if (!down.delete(e.pointerId)) return;\n",
    "  apart = 0;\n",
    "  if (moved < 6 && down.size === 0 && e.type === \"pointerup\")"
    " click(e);\n",
    "}\n",
    "view.addEventListener(\"pointerup\", up);\n",
    "view.addEventListener(\"pointercancel\", up);\n",
    "/* The point nearest to a click, if it is near. */\n",
    "function click(e) {\n",
    "  const box = view.getBoundingClientRect(), u = unit(sheets[on]) * k;\n",
    "  const at_x = (e.clientX - box.left - x) / u, at_y = (e.clientY -"
    " box.top - y) / u;\n",
    "  const name = document.elementsFromPoint(e.clientX,"
    " e.clientY).map(n => n.closest(\"text[data-p]\")).find(n => n);\n",
    "  let best = null, least = Math.max(2.5, 12 / u);\n",
    "  marks.forEach(m => {\n",
    "    const off = Math.hypot(m.x - at_x, m.y - at_y);\n",
    "    if (m.sheet === on && off < least) { best = m; least = off; }\n",
    "  });\n",
    "  if (name) best = marks.find(m => m.sheet === on && m.p ==="
    " +name.dataset.p && !m.faint) || best;\n",
    "  if (best) { tell(best.p); ring(best); }\n",
    "}\n",
    "view.addEventListener(\"wheel\", e => {\n",
    "  const box = view.getBoundingClientRect();\n",
    "  e.preventDefault();\n",
    "  zoom(Math.exp(-e.deltaY * (e.deltaMode ? 0.05 : 0.0015)),"
    " e.clientX - box.left, e.clientY - box.top);\n",
    "}, { passive: false });\n",
    "document.getElementById(\"ui-in\").onclick = () => zoom(1.5,"
    " view.clientWidth / 2, view.clientHeight / 2);\n",
    "document.getElementById(\"ui-out\").onclick = () => zoom(1 / 1.5,"
    " view.clientWidth / 2, view.clientHeight / 2);\n",
    "document.getElementById(\"ui-all\").onclick = fit;\n",
    "document.getElementById(\"ui-print\").onclick = () => window.print();\n",
    "document.getElementById(\"ui-ask\").onsubmit = e => {"
    " e.preventDefault(); search(); };\n",
    "find.addEventListener(\"input\", () => find.setCustomValidity(\"\"));\n",
    "pick.onchange = () => { on = +pick.value; fit(); };\n",
    "data.forEach(d => {\n",
    "  const o = document.createElement(\"option\");\n",
    "  o.value = d.name;\n",
    "  document.getElementById(\"ui-names\").append(o);\n",
    "});\n",
    "sheets.forEach((s, i) => pick.append(new Option(`sheet ${i + 1} of"
    " ${sheets.length}`, String(i))));\n",
    "window.addEventListener(\"resize\", fit);\n",
    "fit();\n",
};

static void put_all(const char *const *lines, size_t count)
{
    for (size_t i = 0; i < count; i++)
        fputs(lines[i], stdout);
}

static void put_head(const struct picture *p, const struct sheet_text *first)
{
    fputs("<!DOCTYPE html>\n<html lang=\"en\"><head><meta charset=\"utf-8\">\n"
          "<meta name=\"viewport\" content=\"width=device-width\">\n<title>",
          stdout);
    xml_put(stdout, p->title, strlen(p->title));
    fputs("</title>\n<style>\n", stdout);
    put_all(style, sizeof style / sizeof style[0]);
    printf("@page { size: %gmm %gmm; margin: 0; }\n"
           "@media print {\n"
           "  html, body { height: auto; }\n"
           "  #ui, #ui-card, .found { display: none !important; }\n"
           "  #ui-view { position: static; overflow: visible; "
           "background: none; }\n"
           "  .sheet { display: block; position: static; transform: none "
           "!important; break-after: page; height: %gmm; overflow: hidden; }\n"
           "  .sheet:last-child { break-after: auto; }\n"
           "  .sheet svg { box-shadow: none; }\n}\n</style></head>\n",
           first->width, first->height, first->height);
}

static void put_bar(const struct picture *p)
{
    fputs("<body><div id=\"ui\"><b>", stdout);
    xml_put(stdout, p->title, strlen(p->title));
    fputs("</b>\n<form id=\"ui-ask\"><input id=\"ui-find\" type=\"search\" "
          "list=\"ui-names\" placeholder=\"find a point\" "
          "autocomplete=\"off\"><datalist id=\"ui-names\"></datalist>\n"
          "<button>find</button></form>\n"
          "<select id=\"ui-sheet\"></select><button id=\"ui-out\" "
          "title=\"smaller\">\xE2\x88\x92</button>"
          "<button id=\"ui-in\" title=\"larger\">+</button>"
          "<button id=\"ui-all\">all</button>"
          "<button id=\"ui-print\">print</button></div>\n"
          "<div id=\"ui-card\"></div>\n<div id=\"ui-view\">\n", stdout);
}

/* A sheet without the line that says it is XML. */
static void put_sheet(const struct sheet_text *s)
{
    const char *svg = strstr(s->bytes, "<svg");

    fputs("<div class=\"sheet\">", stdout);
    if (svg != NULL)
        fputs(svg, stdout);
    fputs("</div>\n", stdout);
}

void html_put(const struct picture *p, const struct sheet_text *sheets,
              size_t count)
{
    put_head(p, &sheets[0]);
    put_bar(p);
    for (size_t i = 0; i < count; i++)
        put_sheet(&sheets[i]);
    fputs("</div>\n<script type=\"application/json\" id=\"ui-data\">", stdout);
    if (p->put_points != NULL)
        p->put_points(p->of);
    else
        fputs("[]", stdout);
    fputs("</script>\n<script>\n", stdout);
    put_all(script, sizeof script / sizeof script[0]);
    fputs("</script></body></html>\n", stdout);
}
