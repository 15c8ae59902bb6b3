// What is asked of a page by tools/check-page, in a world of its own. It is no part of any page.

// Elements and attributes that the viewer does not make.
function strangers(table) {
  const found = [];
  for (const it of document.querySelectorAll("*")) {
    const known = table[it.localName];
    if (!known) found.push(`an element ${it.localName}`);
    for (const { name, value } of known ? it.attributes : []) {
      if (!known.includes(name)) found.push(`${it.localName} has ${name}=${value}`);
      else if (name === "href" && !/^#L[0-9]+$/.test(value)) found.push(`${it.localName} leads to ${value}`);
    }
  }
  const frames = globalThis.frames.length;
  return frames ? [...found, `${frames} frames`] : found;
}

// The elements in order, with the names of their attributes and their classes.
function skeleton() {
  return [...document.querySelectorAll("*")].map(it => {
    const names = [...it.attributes].map(it => it.name).sort();
    return `${it.localName} ${names.join(" ")} ${it.getAttribute("class") || ""}`;
  });
}

// The places of elements that can be pointed at, those of each kind first. Nothing is scrolled in so high a window.
function places(most) {
  const all = [...document.querySelectorAll("[data-n], summary, #sel td")];
  const kindOf = it => it.localName + it.classList[0] + it.closest("section, aside, header")?.id;
  const kinds = new Set(all.map(kindOf));
  const firsts = [...kinds].flatMap(kind => all.filter(it => kindOf(it) === kind).slice(0, 3));
  return [...new Set([...firsts, ...all])].slice(0, most).map(it => {
    const { left, top, width, height } = it.getBoundingClientRect();
    return [left + Math.min(width / 2, 60), top + height / 2];
  });
}

// Opens what is folded, and takes each choice of each box.
function unfold() {
  document.querySelectorAll("details").forEach(it => (it.open = true));
  for (const it of document.querySelectorAll("select")) {
    for (const option of [...it.options].reverse()) {
      it.value = option.value;
      it.dispatchEvent(new Event("change", { bubbles: true }));
    }
  }
}

// Characters that nobody sees, in texts and in attributes.
function unseen() {
  const found = [];
  const form = /[\p{Cc}\p{Cf}\p{Cs}\p{Zl}\p{Zp}]/u;
  const plain = text => text.replace(/[\n\t]/g, "");
  const walker = document.createTreeWalker(document.documentElement, NodeFilter.SHOW_TEXT);
  while (walker.nextNode()) if (form.test(plain(walker.currentNode.data))) found.push(walker.currentNode.data);
  for (const it of document.querySelectorAll("*")) {
    for (const { name, value } of it.attributes) if (form.test(value)) found.push(`${name}=${value}`);
  }
  return found.map(it => "a character that nobody sees in " + JSON.stringify(it.slice(0, 80)));
}

// All that is seen of a page as it was loaded, and what can be pointed at once it is unfolded.
function first(most) {
  const found = { title: document.title, skeleton: skeleton(), parts: parts() };
  unfold();
  return { ...found, places: places(most) };
}

function last(table) {
  return { title: document.title, faults: [...strangers(table), ...unseen()], parts: parts() };
}

// What the page's script must have done: the lists have a stop each, and the box tells of the costliest line.
function parts() {
  return [document.querySelectorAll("[tabindex='0']").length, document.querySelectorAll("#sel tr").length];
}

// -- contrasts

const colourIn = text => (text.match(/rgba?\(([^)]*)\)/) || ["", "0,0,0,0"])[1];
const numbersIn = text => colourIn(text).split(/[ ,/]+/).map(Number);
const over = (top, under) => {
  const [red, green, blue, alpha = 1] = top;
  return [red, green, blue].map((it, at) => it * alpha + under[at] * (1 - alpha));
};
const linear = part => (part <= 0.04045 ? part / 12.92 : ((part + 0.055) / 1.055) ** 2.4);
const light = colour => {
  const [red, green, blue] = colour.map(it => linear(it / 255));
  return 0.2126 * red + 0.7152 * green + 0.0722 * blue;
};

// What is painted behind an element, from the page up; of a gradient, which is of one colour here, its first.
function painted(element) {
  const style = getComputedStyle(element);
  const under = element.parentElement ? painted(element.parentElement) : [255, 255, 255];
  const plain = over(numbersIn(style.backgroundColor), under);
  return style.backgroundImage.startsWith("linear-gradient") ? over(numbersIn(style.backgroundImage), plain) : plain;
}

// Behind a text of the graph: the boxes that it stands in, in their order.
function drawn(text) {
  const place = text.getBoundingClientRect();
  const [x, y] = [(place.left + place.right) / 2, (place.top + place.bottom) / 2];
  const isRound = it => {
    const box = it.getBoundingClientRect();
    return box.left <= x && x <= box.right && box.top <= y && y <= box.bottom;
  };
  const scopes = [...text.ownerSVGElement.querySelectorAll("rect.scope")];
  const boxes = [...scopes, ...text.parentElement.querySelectorAll("rect.dot")].filter(isRound);
  return boxes.reduce((under, it) => over(numbersIn(getComputedStyle(it).fill), under), painted(text));
}

// Badges that lie over the code of their line.
function covered() {
  return [...document.querySelectorAll(".badges")].flatMap(it => {
    const one = it.getBoundingClientRect();
    const other = it.parentElement.querySelector(".line").getBoundingClientRect();
    const isBeside = one.left >= other.right || other.left >= one.right;
    const isApart = isBeside || one.top >= other.bottom - 1 || other.top >= one.bottom - 1;
    return isApart ? [] : [`a badge lies over the code: ${it.textContent}`];
  });
}

// Each text that is seen, with its contrast.
function contrasts() {
  document.querySelectorAll("details").forEach(it => (it.open = true));
  const walker = document.createTreeWalker(document.body, NodeFilter.SHOW_TEXT);
  const found = [];
  while (walker.nextNode()) {
    const element = walker.currentNode.parentElement;
    const text = walker.currentNode.data.trim().slice(0, 30);
    if (!text || !element.checkVisibility() || element.closest("option, title, script")) continue;
    const style = getComputedStyle(element);
    const isDrawn = Boolean(element.ownerSVGElement);
    const under = isDrawn ? drawn(element) : painted(element);
    const colour = over(numbersIn(isDrawn ? style.fill : style.color), under);
    const [low, high] = [light(colour), light(under)].sort((one, other) => one - other);
    found.push([`${element.localName} ${element.getAttribute("class")} ${text}`, (high + 0.05) / (low + 0.05)]);
  }
  return found;
}
