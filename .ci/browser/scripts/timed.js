// Applies edits as text: how many milliseconds pass until the browser can go on.
const text = document.getElementById("text"), began = performance.now();
text.value = arguments[0];
document.getElementById("apply").click();
return performance.now() - began;
