"""Which texts of a page are not told from their ground."""

# texts of which the contrast with what is behind them is less than 4.5 to 1, be it of an element,
# of a sign before or behind it, or of what stands in a line to type; a hatched ground counts as
# its darkest and its lightest part
CONTRAST = """
const canvas = document.createElement('canvas');
canvas.width = canvas.height = 1;
const pen = canvas.getContext('2d', { willReadFrequently: true });
function rgba(colour) {
  pen.clearRect(0, 0, 1, 1);
  pen.fillStyle = colour;
  pen.fillRect(0, 0, 1, 1);
  const [r, g, b, a] = pen.getImageData(0, 0, 1, 1).data;
  return [r, g, b, a / 255];
}
const over = ([r, g, b, a], below) => [r, g, b].map((one, n) => one * a + below[n] * (1 - a));
const light = (rgb) => {
  const [r, g, b] = rgb.map((one) => {
    const part = one / 255;
    return part <= 0.04045 ? part / 12.92 : ((part + 0.055) / 1.055) ** 2.4;
  });
  return 0.2126 * r + 0.7152 * g + 0.0722 * b;
};
// the grounds that may be behind a text
function behind(node, part) {
  if (!node) return [rgba(getComputedStyle(document.body).backgroundColor).slice(0, 3)];
  const told = getComputedStyle(node, part);
  const below = behind(part ? node : node.parentElement).map((one) =>
    over(rgba(told.backgroundColor), one));
  const hatches = told.backgroundImage.match(/(rgba?|color)\\([^)]*\\)/g) || [];
  return [...below, ...hatches.flatMap((one) => below.map((rgb) => over(rgba(one), rgb)))];
}
function ratio(colour, ground) {
  const [one, other] = [light(over(rgba(colour), ground)), light(ground)];
  return (Math.max(one, other) + 0.05) / (Math.min(one, other) + 0.05);
}
const bad = [];
let count = 0;
function look(text, node, colour, part) {
  const box = node.getBoundingClientRect();
  if (!text || !node.checkVisibility({ visibilityProperty: true }) || box.width < 2) return;
  if (node.closest('noscript, .visually-hidden')) return;
  count += 1;
  const least = Math.min(...behind(node, part).map((ground) => ratio(colour, ground)));
  if (least < 4.5) bad.push(`${text.slice(0, 30)} (${node.className}): ${least.toFixed(2)}`);
}
const walk = document.createTreeWalker(document.body, NodeFilter.SHOW_TEXT);
while (walk.nextNode()) {
  const node = walk.currentNode.parentElement;
  look(walk.currentNode.data.trim(), node, getComputedStyle(node).color);
}
for (const node of document.body.querySelectorAll('*')) {
  for (const part of ['::before', '::after']) {
    const told = getComputedStyle(node, part);
    if (!/^(none|normal|"")$/.test(told.content)) look(told.content, node, told.color, part);
  }
  if (!node.matches('input')) continue;
  look(node.value, node, getComputedStyle(node).color);
  look(node.placeholder, node, getComputedStyle(node, '::placeholder').color);
}
return count < 20 ? ['too few texts were seen'] : [...new Set(bad)];
"""
