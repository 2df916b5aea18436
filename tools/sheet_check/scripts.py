"""Scripts that run in a page, to look at it as it is shown."""

# what is wider than the window: text that no part holds which scrolls, and these parts themselves
WIDE = """(function () {
  var wide = [], most = window.innerWidth + 0.5, range = document.createRange(), node;
  function judge(rects, text) {
    for (var i = 0; i < rects.length; i++)
      if (rects[i].right > most || rects[i].left < -0.5) { wide.push(text.trim().slice(0, 60)); return; }
  }
  var walker = document.createTreeWalker(document.body, NodeFilter.SHOW_TEXT | NodeFilter.SHOW_ELEMENT, function (node) {
    if (node.nodeType === 3) return node.data.trim() ? NodeFilter.FILTER_ACCEPT : NodeFilter.FILTER_REJECT;
    if (node.matches("script, .sr, .skip")) return NodeFilter.FILTER_REJECT;
    if (!node.matches(".scroll, .lines, .columns, .groups")) return NodeFilter.FILTER_SKIP;
    judge(node.getClientRects(), "a part that scrolls: " + node.className);
    return NodeFilter.FILTER_REJECT;
  });
  while ((node = walker.nextNode())) {
    range.selectNodeContents(node);
    judge(range.getClientRects(), node.data);
  }
  if (document.documentElement.scrollWidth > window.innerWidth) wide.push("the page: " + document.documentElement.scrollWidth);
  return wide;
})()"""

# types a name into the field of the filter, and counts the cards that are left
FILTER = """(function (name) {
  var field = document.getElementById("filter");
  field.value = name;
  field.dispatchEvent(new Event("input"));
  var left = document.querySelectorAll(".card:not([hidden])").length;
  field.value = "";
  field.dispatchEvent(new Event("input"));
  return [left, document.querySelectorAll(".card:not([hidden])").length];
})"""

# opens all that is folded, and finds: text that is hard to tell from its ground (a contrast below 4.5), tables without a caption or heads,
# headings that leave a level out, links to nowhere, names of elements that come twice, and parts that scroll and no key reaches
HARD = """(function () {
  var hard = [], seen = {}, names = {}, level = 0;
  function each(selector, what) { Array.prototype.forEach.call(document.querySelectorAll(selector), what); }
  function colour(text) { var parts = text.match(/[\\d.]+/g).map(Number); return parts.length === 3 ? parts.concat(1) : parts; }
  function light(parts) {
    var each = parts.slice(0, 3).map(function (x) { x /= 255; return x <= 0.04045 ? x / 12.92 : Math.pow((x + 0.055) / 1.055, 2.4); });
    return 0.2126 * each[0] + 0.7152 * each[1] + 0.0722 * each[2];
  }
  function ground(node) {
    for (; node; node = node.parentElement) {
      var found = colour(getComputedStyle(node).backgroundColor);
      if (found[3] > 0) return found;
    }
    return [255, 255, 255, 1];
  }
  each("details", function (part) { part.open = true; });
  each("body *", function (node) {
    if (node.id && names[node.id]) hard.push("a name that comes twice: " + node.id);
    names[node.id] = true;
    var isText = Array.prototype.some.call(node.childNodes, function (part) { return part.nodeType === 3 && part.data.trim(); });
    if (!isText || node.closest("script")) return;
    var style = getComputedStyle(node), front = colour(node instanceof SVGElement ? style.fill : style.color), after = ground(node);
    var key = front + " on " + after, one = light(front), other = light(after);
    var contrast = (Math.max(one, other) + 0.05) / (Math.min(one, other) + 0.05);
    if (contrast < 4.5 && !seen[key]) hard.push(node.textContent.trim().slice(0, 40) + ": contrast " + contrast.toFixed(2));
    seen[key] = true;
  });
  each("table", function (table) {
    if (!table.caption || !table.caption.textContent.trim() || !table.querySelector("th")) hard.push("a table without caption or heads");
  });
  each("h1, h2, h3, h4", function (head) {
    if (+head.tagName[1] > level + 1) hard.push("a level is left out before " + head.textContent);
    level = +head.tagName[1];
  });
  each("a[href^='#'], [aria-labelledby]", function (node) {
    if (!names[(node.getAttribute("href") || "#" + node.getAttribute("aria-labelledby")).slice(1)]) hard.push("a link to nowhere");
  });
  each(".scroll, .lines, .columns, .groups, pre", function (part) {
    var scrolls = part.scrollWidth > part.clientWidth + 1 || part.scrollHeight > part.clientHeight + 1;
    if (scrolls && getComputedStyle(part).overflowX !== "visible" && part.tabIndex < 0) hard.push("no key scrolls " + part.className);
  });
  return hard;
})()"""
