(function () {
  var D = JSON.parse(document.getElementById('data').textContent), px = D.px, cur = null;
  function $(id) { return document.getElementById(id); }
  function list(root, q) { return Array.prototype.slice.call(root.querySelectorAll(q)); }
  var svg = $('svg'), sc = $('scroll');
  var groups = list(svg, 'g[data-a]'), rects = list(svg, 'rect[data-a]'), texts = list(svg, 'text[data-full]');
  var lines = list(svg, 'path[data-pts]'), arcs = list(svg, 'path[data-race]');
  function X(slot) { return 6 + slot * px; }

  // As much of a text as fits a width; nothing where that is less than three letters.
  function cut(s, w) {
    var n = Math.floor((w - 8) / 6.9);
    return n >= s.length ? s : n < 3 ? '' : s.slice(0, n - 1) + '…';
  }

  // Texts stay in view while their band is; a value's text may stand to the left of its band where there is more room.
  function words() {
    var left = sc.scrollLeft;
    texts.forEach(function (t) {
      var a = X(+t.dataset.a), b = X(+t.dataset.b), v = a < left && b > left + 40 ? left : a, full = t.dataset.full, fit = cut(full, b - v);
      var alt = t.dataset.alt && fit !== full && v === a ? t.dataset.alt.split(',') : 0;
      var before = alt && a - X(+alt[0]) > (full.length + +alt[1]) * 7 + 24;
      t.setAttribute('x', (before ? a - 5 : v + 4).toFixed(1));
      t.setAttribute('text-anchor', before ? 'end' : 'start');
      t.textContent = before ? full : t.dataset.alt ? (fit === full ? fit : '') : fit;
    });
  }
  var due = 0;
  sc.addEventListener('scroll', function () {
    if (!due) { due = 1; requestAnimationFrame(function () { due = 0; words(); }); }
  });

  function lay() {
    var w = Math.ceil(X(D.n) + 8);
    svg.setAttribute('width', w);
    svg.setAttribute('viewBox', '0 0 ' + w + ' ' + D.h);
    groups.forEach(function (g) { g.setAttribute('transform', 'translate(' + X(+g.dataset.a).toFixed(1) + ',0)'); });
    rects.forEach(function (r) {
      var a = X(+r.dataset.a);
      r.setAttribute('x', a.toFixed(1));
      r.setAttribute('width', Math.max(1, X(+r.dataset.b) - a - (r.dataset.g | 0)).toFixed(1));
    });
    words();
    lines.forEach(function (p) {
      p.setAttribute('d', p.dataset.pts.split(';').map(function (q, i) {
        q = q.split(',');
        return (i ? 'L' : 'M') + X(+q[0]).toFixed(1) + ' ' + q[1];
      }).join(''));
    });
    arcs.forEach(function (p) {
      var q = p.dataset.race.split(',').map(Number), a = X(q[0]), b = X(q[2]), m = (b - a) / 2;
      p.setAttribute('d', 'M' + a.toFixed(1) + ' ' + q[1] + 'C' + (a + m).toFixed(1) + ' ' + q[1] + ' ' + (b - m).toFixed(1) + ' ' + q[3] + ' ' +
        b.toFixed(1) + ' ' + q[3]);
    });
    var every = px >= 22 ? 1 : px >= 9 ? 5 : px >= 4 ? 10 : px >= 1 ? 50 : 500;
    list(svg, 'g.tick').forEach(function (g) { g.style.display = +g.dataset.t % every ? 'none' : ''; });
    list(svg, 'g.pastlab text').forEach(function (t) {
      var left = X(+t.parentNode.dataset.a) > t.textContent.length * 6.9 + 10;
      t.setAttribute('text-anchor', left ? 'end' : 'start');
      t.setAttribute('x', left ? -6 : 6);
    });
    var scale = 'scale(' + Math.max(.45, Math.min(1.25, px / 11)).toFixed(2) + ')';
    list(svg, '.mk').forEach(function (m) { m.setAttribute('transform', scale); });
    $('zoomv').textContent = px < 10 ? px.toFixed(1) : Math.round(px);
  }

  function zoom(to, keep) {
    var c = cur === null ? (sc.scrollLeft + sc.clientWidth / 2 - 6) / px : D.slot[cur - D.first] + .5, off = X(c) - sc.scrollLeft;
    px = Math.max(.2, Math.min(60, to));
    lay();
    sc.scrollLeft = keep === 0 ? 0 : X(c) - off;
  }

  function put(el, tag, txt, cls) {
    var e = document.createElement(tag);
    e.textContent = txt;
    if (cls) e.className = cls;
    el.appendChild(e);
    return e;
  }

  // What turn t does, in the panel, and the line at it.
  function show(t, scroll) {
    cur = t;
    var d = D.t[t - D.first], s = D.slot[t - D.first], g = $('cursor'), n = $('now');
    g.setAttribute('data-a', s + .5);
    g.setAttribute('transform', 'translate(' + X(s + .5) + ',0)');
    g.style.display = '';
    $('turn').value = t;
    $('turn').setAttribute('aria-valuetext', 'turn ' + t + ', ' + d[0] + ' ' + d[3]);
    n.textContent = '';
    var p = put(n, 'p', '');
    put(p, 'b', 'Turn ' + t + ': ' + d[0]);
    p.appendChild(document.createTextNode(' ' + d[3] + '.'));
    p = put(n, 'p', 'Step ' + d[1] + (d[2] ? ', in: ' : ''), 'small mut');
    put(p, 'code', d[2]);
    p = put(n, 'p', 'Stack after it, top last: ', 'small');
    put(p, 'code', d[4] || 'empty');
    d[5].forEach(function (s) { put(n, 'p', s, 'small r'); });
    if (scroll) {
      var x = X(s + .5);
      if (x < sc.scrollLeft + 30 || x > sc.scrollLeft + sc.clientWidth - 30) sc.scrollLeft = x - sc.clientWidth / 2;
    }
  }

  // The turn at a pointer: that of its column, or of the next one that is a turn.
  function at(ev) {
    var s = Math.floor((ev.clientX - svg.getBoundingClientRect().left - 6) / px);
    s = Math.max(0, Math.min(D.n - 1, s));
    for (var k = s; k < D.n; k++) if (D.turn[k] !== null) return D.turn[k];
    return D.last;
  }
  if (D.t.length) {
    svg.addEventListener('pointermove', function (e) {
      if (e.pointerType === 'mouse') { var t = at(e); if (t !== cur) show(t); }
    });
    svg.addEventListener('click', function (e) { show(at(e)); });
    $('turn').addEventListener('input', function () { show(+this.value, 1); });
    $('prev').onclick = function () { show(Math.max(D.first, (cur === null ? D.first : cur) - 1), 1); };
    $('next').onclick = function () { show(Math.min(D.last, (cur === null ? D.first - 1 : cur) + 1), 1); };
  }
  $('in').onclick = function () { zoom(px * 1.5); };
  $('out').onclick = function () { zoom(px / 1.5); };
  $('fit').onclick = function () { zoom((sc.clientWidth - 16) / D.n, 0); };
  if ($('gocap')) $('gocap').onclick = function () { show(D.past, 1); };
  list(document, '[data-go]').forEach(function (b) {
    b.onclick = function () { show(+b.dataset.go, 1); $('chart').scrollIntoView({ block: 'nearest' }); };
  });
  if ($('line')) $('line').onchange = function () {
    var v = this.value;
    list(document, 'g.series').forEach(function (g) { g.style.display = g.dataset.k === v ? '' : 'none'; });
    $('cap').textContent = D.caps[v];
  };
  var old;
  window.addEventListener('beforeprint', function () { old = px; px = Math.min(14, Math.max(2, 780 / D.n)); lay(); });
  window.addEventListener('afterprint', function () { px = old; lay(); });
  list(document, '.js').forEach(function (e) { e.hidden = false; });
  var want = (sc.clientWidth - 16) / D.n;
  px = want >= 7 ? Math.min(want, 26) : 11;
  lay();
  if (D.see !== null) sc.scrollLeft = X(D.see) - sc.clientWidth * .6;
})();
