// Improves the page where there is JavaScript: news come by themselves, and what was folded stays folded. Without it
// everything works: a page asks anew each half minute.
"use strict";
(() => {
  const LOOK = 3000, WORKS = 1000;
  let mark = document.body.dataset.mark, failed = 0;
  const live = document.getElementById("live");

  function folds() {
    const found = new Map();
    document.querySelectorAll("details[data-fold]").forEach((each) => found.set(each.dataset.fold, each.open));
    return found;
  }

  function isTyping() {
    const at = document.activeElement;
    return at && /^(INPUT|TEXTAREA|SELECT)$/.test(at.tagName) && at.closest("main");
  }

  // What has the focus keeps it, by its place among those that may have it.
  function focused(main) {
    const all = [...main.querySelectorAll("a, button, summary, input, select, textarea")];
    return all.indexOf(document.activeElement);
  }

  async function renew() {
    const answer = await fetch(location.href, { cache: "no-store" });
    if (!answer.ok) return;
    const next = new DOMParser().parseFromString(await answer.text(), "text/html");
    const main = document.querySelector("main"), fresh = next.querySelector("main");
    if (!fresh || isTyping()) return;
    const open = folds(), at = focused(main);
    fresh.querySelectorAll("details[data-fold]").forEach((each) => {
      if (open.has(each.dataset.fold)) each.open = open.get(each.dataset.fold);
    });
    main.replaceChildren(...fresh.childNodes);
    document.querySelector("footer").replaceChildren(...next.querySelector("footer").childNodes);
    if (at >= 0) {
      const all = main.querySelectorAll("a, button, summary, input, select, textarea");
      if (all[at]) all[at].focus({ preventScroll: true });
    }
    mark = next.body.dataset.mark;
  }

  async function look() {
    const works = document.querySelector("[data-works]");
    try {
      if (works) {
        await renew();
      } else if (!document.hidden && /^(now|time)$/.test(document.body.dataset.view)) {
        const answer = await fetch("/state", { cache: "no-store" });
        if (answer.ok && (await answer.json()).mark !== mark) await renew();
      }
      failed = 0;
    } catch (why) {
      failed += 1;
    }
    document.body.classList.toggle("stale", failed > 2);
    const words = document.getElementById("live");
    if (words) words.textContent = failed > 2 ? " This page has not been answered for a while: what it shows is old." : "";
    setTimeout(look, works ? WORKS : LOOK);
  }

  if (live) setTimeout(look, LOOK / 3);
})();
