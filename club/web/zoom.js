// Moves and enlarges the map: buttons, two fingers, the wheel with Ctrl, and keys.

export function zoomable(svg, width, height, onScale) {
  const view = { x: 0, y: 0, w: width };
  const fingers = new Map();
  let dragged = false;

  const size = () => [svg.clientWidth || 1, svg.clientHeight || 1];
  const fit = () => { const [w, h] = size(); return Math.max(width, height * w / h); };

  function show() {
    const [w, h] = size();
    view.w = Math.min(fit(), Math.max(width / 8, view.w));
    const high = view.w * h / w;
    const clamp = (v, room, whole) =>
      (room >= whole ? (whole - room) / 2 : Math.max(0, Math.min(whole - room, v)));
    view.x = clamp(view.x, view.w, width);
    view.y = clamp(view.y, high, height);
    svg.setAttribute("viewBox", [view.x, view.y, view.w, high].map((z) => z.toFixed(1)).join(" "));
    svg.classList.toggle("whole", view.w >= fit() - 1);
    onScale(w / view.w);
  }
  const at = (px, py) => {
    const box = svg.getBoundingClientRect();
    const [w] = size();
    return [view.x + (px - box.left) * view.w / w, view.y + (py - box.top) * view.w / w];
  };
  function zoom(factor, px, py) {
    const box = svg.getBoundingClientRect();
    const [cx, cy] = at(px ?? box.left + box.width / 2, py ?? box.top + box.height / 2);
    const w = Math.min(fit(), Math.max(width / 8, view.w * factor));
    view.x = cx - (cx - view.x) * w / view.w;
    view.y = cy - (cy - view.y) * w / view.w;
    view.w = w;
    show();
  }
  function pan(dx, dy) { view.x += dx * view.w; view.y += dy * view.w; show(); }
  function whole() { view.w = fit(); show(); }
  function middle(cx, cy, w) {
    const [sw, sh] = size();
    Object.assign(view, { x: cx - w / 2, y: cy - w * sh / sw / 2, w });
    show();
  }

  svg.addEventListener("wheel", (e) => {
    if (!e.ctrlKey) return;
    e.preventDefault();
    zoom(e.deltaY > 0 ? 1.15 : 1 / 1.15, e.clientX, e.clientY);
  }, { passive: false });
  svg.addEventListener("pointerdown", (e) => {
    fingers.set(e.pointerId, [e.clientX, e.clientY]);
    if (fingers.size === 1) dragged = false;
  });
  svg.addEventListener("pointermove", (e) => {
    const old = fingers.get(e.pointerId);
    if (!old) return;
    const now = [e.clientX, e.clientY];
    const [w] = size();
    if (fingers.size === 1) {
      if (!dragged && Math.hypot(now[0] - old[0], now[1] - old[1]) < 7) return;
      if (svg.classList.contains("whole")) return;
      dragged = true;
      view.x -= (now[0] - old[0]) * view.w / w;
      view.y -= (now[1] - old[1]) * view.w / w;
      show();
    } else {
      const other = [...fingers].find(([id]) => id !== e.pointerId)[1];
      const far = (p) => Math.hypot(p[0] - other[0], p[1] - other[1]) || 1;
      dragged = true;
      zoom(far(old) / far(now), (now[0] + other[0]) / 2, (now[1] + other[1]) / 2);
    }
    fingers.set(e.pointerId, now);
  });
  for (const end of ["pointerup", "pointercancel", "pointerleave"]) {
    svg.addEventListener(end, (e) => fingers.delete(e.pointerId));
  }
  // A drag is no click.
  svg.addEventListener("click", (e) => { if (dragged) e.stopImmediatePropagation(); dragged = false;
    }, true);
  svg.addEventListener("keydown", (e) => {
    const step = { ArrowLeft: [-0.1, 0], ArrowRight: [0.1, 0], ArrowUp: [0, -0.1],
      ArrowDown: [0, 0.1] }[e.key];
    if (e.key === "+" || e.key === "=") zoom(1 / 1.3);
    else if (e.key === "-") zoom(1.3);
    else if (e.key === "0") whole();
    else if (step && e.shiftKey) pan(...step);
    else return;
    e.preventDefault();
    e.stopPropagation();
  });
  new ResizeObserver(show).observe(svg);
  return { zoom, whole, middle };
}
