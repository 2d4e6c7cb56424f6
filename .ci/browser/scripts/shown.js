// The pixels on the screen, as a number that tells them apart.
const canvas = document.getElementById("canvas");
const { data } = canvas.getContext("2d").getImageData(0, 0, canvas.width, canvas.height);
return data.reduce((sum, it) => (Math.imul(sum, 31) + it) | 0, 7);
