// Fields and buttons without a name that a screen reader says.
const hasName = (it) => it.textContent.trim() || it.labels?.length || it.getAttribute("aria-label");
return [...document.querySelectorAll("button, input, select, textarea, [role=img], [role=group]")]
  .filter((it) => !it.hidden && !hasName(it))
  .map((it) => it.outerHTML);
