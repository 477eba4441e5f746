// The book's search, over PLACES of places.js: [title, where it leads, words]. It needs no server.
"use strict";
const box = document.getElementById("search");
const list = document.getElementById("found");

// How well a place has all the words that are looked for: 0 is not at all.
function weight(place, words) {
  const title = place[0].toLowerCase(), text = title + " " + place[2].toLowerCase();
  if (!words.every((word) => text.includes(word))) return 0;
  return 1 + words.filter((word) => title.includes(word)).length + (text.includes(words.join(" ")) ? 2 : 0);
}

// Shows the best twenty places, with the words around the first one that is looked for.
function find() {
  const words = box.value.toLowerCase().split(/\s+/).filter(Boolean);
  const found = words.length === 0 ? [] : PLACES.map((place) => [weight(place, words), place]).filter(([much]) => much > 0)
    .sort((one, other) => other[0] - one[0]).slice(0, 20);
  list.replaceChildren(...found.map(([, [title, target, text]]) => {
    const item = document.createElement("li"), link = document.createElement("a");
    const at = Math.max(0, text.toLowerCase().indexOf(words[0]) - 40);
    link.href = target;
    link.textContent = title;
    item.append(link, " " + (at > 0 ? ".. " : "") + text.slice(at, at + 120));
    return item;
  }));
  if (words.length > 0 && found.length === 0) list.append("nothing");
}
box.addEventListener("input", find);
