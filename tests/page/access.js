// What a person needs of the page that is shown now: answers a list of what is wrong with names, labels, colours, headings and
// width. It is run in the page by tests/page.py.
(() => {
  const wrong = [];
  const named = (element) => element?.id || element?.textContent?.trim().slice(0, 40) || element?.tagName;
  const tell = (what, element) => wrong.push(`${what}: ${named(element)}`);
  const shown = (element) => element.checkVisibility({ checkVisibilityCSS: true, checkOpacity: true });
  const scope = document.querySelector("dialog[open]") ?? document.body;
  const all = [...scope.querySelectorAll("*")].filter(shown);

  // Colours, as red, green, blue and opacity.
  const numbers = (colour) => {
    const parts = colour.match(/[\d.]+/g).map(Number);
    return parts.length === 3 ? [...parts, 1] : parts;
  };
  const over = (top, under) => [0, 1, 2].map((at) => top[at] * top[3] + under[at] * (1 - top[3])).concat(1);
  const behind = (element) => {
    const layers = [];
    for (let at = element; at; at = at.parentElement) layers.push(numbers(getComputedStyle(at).backgroundColor));
    return layers.reverse().reduce((under, layer) => over(layer, under), [255, 255, 255, 1]);
  };
  const light = (colour) => {
    const [red, green, blue] = colour.map((it) => (it / 255 <= 0.04045 ? it / 255 / 12.92 : ((it / 255 + 0.055) / 1.055) ** 2.4));
    return 0.2126 * red + 0.7152 * green + 0.0722 * blue;
  };
  const contrast = (one, other) => {
    const [low, high] = [light(one), light(other)].sort((a, b) => a - b);
    return (high + 0.05) / (low + 0.05);
  };

  // Text stands out from what is behind it, and the border of what can be filled in from its surroundings.
  let texts = 0, least = 21;
  for (const element of all) {
    const own = [...element.childNodes].some((node) => node.nodeType === Node.TEXT_NODE && node.data.trim());
    const filled = /^(INPUT|TEXTAREA)$/.test(element.tagName) && !/^(checkbox|file)$/.test(element.type);
    if (!own && !filled) continue;
    const box = element.getBoundingClientRect();
    if (box.width <= 1 || box.height <= 1) continue;
    const found = contrast(over(numbers(getComputedStyle(element).color), behind(element)), behind(element));
    texts++;
    least = Math.min(least, found);
    if (found < 4.5) tell(`contrast ${found.toFixed(2)}`, element);
    if (filled && contrast(numbers(getComputedStyle(element).borderTopColor), behind(element.parentElement)) < 3)
      tell("a border that is hard to see", element);
  }

  // Controls are large enough to be touched, and labelled; images have a text; names of elements are used once.
  const controls = all.filter((it) => it.matches("a, button, input, textarea, [tabindex='0']"));
  for (const element of controls) {
    const box = element.getBoundingClientRect();
    const small = box.width < 24 || box.height < 24;
    if (small && !element.matches("[type=checkbox], .skip")) tell(`a control of ${box.width} by ${box.height}`, element);
    if (element.matches("input, textarea") && !element.labels?.length) tell("no label", element);
    if (element.tabIndex > 0) tell("an order of its own", element);
  }
  const ids = [...document.querySelectorAll("[id]")].map((it) => it.id);
  if (new Set(ids).size !== ids.length) tell("an id used twice");
  for (const element of document.querySelectorAll("[aria-labelledby], [aria-describedby]"))
    for (const name of ["aria-labelledby", "aria-describedby"])
      for (const id of (element.getAttribute(name) ?? "").split(/\s+/).filter(Boolean))
        if (!document.getElementById(id)) tell(`${name} of nothing, ${id}`, element);

  // Headings begin with one of the first level, and none is skipped.
  const levels = all.filter((it) => /^H[1-6]$/.test(it.tagName)).map((it) => Number(it.tagName[1]));
  const wanted = scope === document.body ? 1 : 2;
  if (levels[0] !== wanted || levels.filter((it) => it === 1).length > 1) tell(`headings ${levels}`);
  levels.forEach((level, at) => at && level > levels[at - 1] + 1 && tell(`headings ${levels}`));

  if (!document.documentElement.lang) tell("no language");
  if (!document.querySelector("main")) tell("no main part");
  // A telephone shows a page that is too wide in a smaller scale, so its own width is not asked.
  const room = document.documentElement.clientWidth, width = document.scrollingElement.scrollWidth;
  const wide = all.filter((it) =>
    it.getBoundingClientRect().right > room + 0.5 && !it.closest(".picture, .list, .examples, thead"));
  if (width > room || wide.length) tell(`${width} wide in ${room}`, wide.at(-1));
  return { wrong, texts, least, controls: controls.length };
})();
