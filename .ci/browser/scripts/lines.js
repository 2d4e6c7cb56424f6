// The lines of the script: the text, the reply, and whether it is the present step.
return [...document.querySelectorAll("#lines li")].map((it) => [
  it.querySelector("code").textContent,
  it.querySelector("output")?.textContent ?? "",
  it.ariaCurrent ?? "",
]);
