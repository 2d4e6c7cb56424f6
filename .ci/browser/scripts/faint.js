// Texts whose contrast with their background is under 4.5, as the browser computes colours.
const context = document.createElement("canvas").getContext("2d", { willReadFrequently: true });
const bytesOf = (colour) => {
  context.clearRect(0, 0, 1, 1);
  context.fillStyle = colour;
  context.fillRect(0, 0, 1, 1);
  return [...context.getImageData(0, 0, 1, 1).data];
};
const linear = (it) => (it <= 0.04045 ? it / 12.92 : ((it + 0.055) / 1.055) ** 2.4);
const lightOf = (bytes) => [0.2126, 0.7152, 0.0722]
  .reduce((sum, weight, at) => sum + weight * linear(bytes[at] / 255), 0);
const background = (it) => {
  for (let at = it; at; at = at.parentElement) {
    const bytes = bytesOf(getComputedStyle(at).backgroundColor);
    if (bytes[3] === 255) {
      return bytes;
    }
  }
  return [255, 255, 255, 255];
};
const hasText = (it) => [...it.childNodes].some((at) => at.nodeType === 3 && at.textContent.trim());
const ratioOf = (it) => {
  const lights = [bytesOf(getComputedStyle(it).color), background(it)].map(lightOf);
  return (Math.max(...lights) + 0.05) / (Math.min(...lights) + 0.05);
};
return [...document.querySelectorAll("body *")]
  .filter((it) => !it.closest("svg") && it.checkVisibility() && hasText(it))
  .map((it) => [ratioOf(it), it.textContent.trim().slice(0, 40)])
  .filter(([ratio]) => ratio < 4.5);
