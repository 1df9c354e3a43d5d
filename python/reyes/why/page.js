"use strict";
// Which sample is told: the one that is pointed at, has the focus, or stands in the address as #sample-3.
(() => {
  const samples = [...document.querySelectorAll("a.sample")];
  const parts = [...document.querySelectorAll("[data-samples]")].map((it) => [it, new Set(it.dataset.samples.split(" "))]);
  const byNumber = new Map(samples.map((it) => [it.dataset.sample, it]));
  const marker = document.getElementById("marker");
  let current = null;

  function choose(number) {
    if (number === current || !byNumber.has(number)) return;
    current = number;
    for (const [it, numbers] of parts) it.classList.toggle("on", numbers.has(number));
    for (const it of samples) it.setAttribute("tabindex", it.dataset.sample === number ? "0" : "-1");
    const chosen = byNumber.get(number);
    marker.setAttribute("cx", chosen.dataset.x);
    marker.setAttribute("cy", chosen.dataset.y);
    marker.setAttribute("r", chosen.querySelector("circle").getAttribute("r"));
  }

  function named() {
    return (/^#sample-(\d+)$/.exec(location.hash) || [])[1];
  }

  function keep(number) {
    choose(number);
    history.replaceState(null, "", `#sample-${number}`);
  }

  // The sample nearest in x to one, in the next row of samples above (-1) or below (1).
  function inRow(from, step) {
    const row = (it) => Number(it.dataset.row), x = (it) => Number(it.dataset.x);
    const beyond = samples.filter((it) => (row(it) - row(from)) * step > 0);
    const next = Math.min(...beyond.map((it) => row(it) * step)) * step;
    const there = beyond.filter((it) => row(it) === next);
    return there.sort((a, b) => Math.abs(x(a) - x(from)) - Math.abs(x(b) - x(from)))[0];
  }

  function next(from, key) {
    const at = samples.indexOf(from);
    const to = { ArrowLeft: at - 1, ArrowRight: at + 1, Home: 0, End: samples.length - 1 }[key];
    if (to !== undefined) return samples[to];
    return key === "ArrowUp" ? inRow(from, -1) : key === "ArrowDown" ? inRow(from, 1) : undefined;
  }

  for (const it of samples) {
    it.addEventListener("pointerenter", () => choose(it.dataset.sample));
    it.addEventListener("focus", () => keep(it.dataset.sample));
    it.addEventListener("keydown", (event) => {
      if (!["ArrowLeft", "ArrowRight", "ArrowUp", "ArrowDown", "Home", "End"].includes(event.key)) return;
      event.preventDefault();
      const to = next(it, event.key);
      if (to) to.focus({ preventScroll: true });
    });
  }
  for (const it of document.querySelectorAll("a[data-sample]")) {
    it.addEventListener("click", (event) => {
      event.preventDefault();
      keep(it.dataset.sample);
    });
  }
  addEventListener("hashchange", () => choose(named()));

  const film = document.getElementById("film");
  if ("asks" in film.dataset) {
    film.addEventListener("click", (event) => {
      const image = film.querySelector("img"), box = image.getBoundingClientRect();
      const along = (at, start, length, pixels) => Math.min(pixels - 1, Math.max(0, Math.floor(((at - start) * pixels) / length)));
      const x = Number(film.dataset.left) + along(event.clientX, box.left, box.width, Number(image.getAttribute("width")));
      const y = Number(film.dataset.top) + along(event.clientY, box.top, box.height, Number(image.getAttribute("height")));
      film.classList.add("waiting");
      location.assign(`/?x=${x}&y=${y}`);
    });
    addEventListener("pageshow", () => film.classList.remove("waiting"));
  }

  if (samples.length) {
    document.documentElement.classList.add("live");
    // at first the sample that counts most
    const heaviest = samples.reduce((a, b) => (Number(b.dataset.weight) > Number(a.dataset.weight) ? b : a)).dataset.sample;
    choose(byNumber.has(named()) ? named() : heaviest);
    // what is told of a sample stands beside the drawing: an address with a sample doesn't scroll there, and gives it the focus
    const begin = () => {
      scrollTo(0, 0);
      byNumber.get(current).focus({ preventScroll: true });
    };
    if (byNumber.has(named())) addEventListener("load", () => requestAnimationFrame(begin));
  }
})();
