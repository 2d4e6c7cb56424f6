// What a finger can't hit: buttons and fields under 24 pixels.
return [...document.querySelectorAll("button, select, summary, label:has(input)")]
  .filter((it) => it.checkVisibility())
  .map((it) => [it.getBoundingClientRect(), it.textContent.trim()])
  .filter(([box]) => box.width < 24 || box.height < 24)
  .map(([, text]) => text);
