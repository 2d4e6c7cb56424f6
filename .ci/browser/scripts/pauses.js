// How long the page was busy at a time, in milliseconds, since the last call: the longest time between two of its frames.
window.pauses ??= (() => {
  const found = { last: performance.now(), most: 0 };
  found.tick = () => {
    const now = performance.now();
    found.most = Math.max(found.most, now - found.last);
    found.last = now;
  };
  const next = () => {
    found.tick();
    requestAnimationFrame(next);
  };
  next();
  return found;
})();
window.pauses.tick();
const { most } = window.pauses;
window.pauses.most = 0;
return [Math.round(most)];
