"""What `test-page` opens and asks: texts written by hand in the forms of the commands, and expressions for the browser."""

MRSS = """\
[ TOP: h0 INDEX: e1 RELS: < [ _every_q LBL: h2 ARG0: x3 BODY: h4 RSTR: h5 ] [ _dog_n LBL: h6 ARG0: x3 ] [ _chase_v LBL: h0 ARG0: e1 ARG1: x3 ARG2: x7 ] [ _a_q LBL: h8 ARG0: x7 BODY: h9 RSTR: h10 ] [ _cat_n LBL: h11 ARG0: x7 ] > HCONS: < h5 qeq h6 h10 qeq h11 > ]
[ TOP: h7 INDEX: e9 RELS: < [ "_the_q" LBL: h20 ARG0: x3 [ x NUM: sg ] RSTR: h5 BODY: h4 ] [ _dog_n<4:7> LBL: h6 ARG0: x3 ] [ _bark_v LBL: h7 ARG0: e9 ARG1: x3 ] > HCONS: < h5 qeq h6 > ICONS: < e9 focus x3 > ]
[ TOP: h0 INDEX: e2 RELS: < [ _rain_v LBL: h0 ARG0: e2 ] > HCONS: < > ]
"""
SCOPES = """\
item 1 scopes 2
  top=h2 h4=h8 h5=h6 h9=h0 h10=h11
  top=h8 h4=h0 h5=h6 h9=h2 h10=h11
item 2 scopes 1
  top=h2 h4=h0 h5=h6
item 3 scopes 0
"""
CHART = """\
item 1 classes 6
  1 0:1 any-determiner (the_d "the")
  2 0:2 specifier-head (det_noun 1 5) (other_rule 1 4)
  3 0:3 specifier-head* (subj_head 2 6)
  4 1:2 animal-noun (dog_n "dog")
  5 1:2 noun-word (sg_noun (dog_n "dog"))
  6 2:3 present-verb (3sg_verb (bark_v "barks"))
item 2 classes 2
  unknown 1:2 gnu
  1 0:1 any-determiner (the_d "the")
  2 2:3 a-long-name-of-a-type-that-no-one-would-write (3sg_verb (bark_v "barks"))
item 3 refused edges
"""
OLD = """\
item 1 classes 3 readings 1
  (s_r (dogs_n "dogs") (bark_v "bark"))
item 2 classes 10 readings 1
  (s_r (dogs_n "dogs") (vp_pp (vp_r (chase_v "chase") (cats_n "cats")) (pp_r (with_p "with") (dogs_n "dogs"))))
item 3 refused edges
"""
NEW = """\
item 1 classes 2 readings 0
item 2 classes 11 readings 2
  (s_r (dogs_n "dogs") (vp_r (chase_v "chase") (np_pp (cats_n "cats") (pp_r (with_p "with") (dogs_n "dogs")))))
  (s_r (dogs_n "dogs") (vp_pp (vp_r (chase_v "chase") (cats_n "cats")) (pp_r (with_p "with") (dogs_n "dogs"))))
item 3 classes 1 readings 1
  (dogs_n "dogs")
"""
PROFILE = """\
; comments are passed over
1 dogs bark
  (s_r (dogs_n "dogs") (bark_v "bark"))
2 dogs chase cats with dogs
  (s_r (dogs_n "dogs") (vp_pp (vp_r (chase_v "chase") (cats_n "cats")) (pp_r (with_p "with") (dogs_n "dogs"))))
? dogs
"""
BATCH = """\
item 1 differs 1 0
  trees kept 0 lost 1 gained 0
item 2 differs 2 2
  trees kept 1 lost 0 gained 1
item 3 new 1
batch items 3 same 0 differs 2 new 1 bad 0
"""
GENERATED = "item 1 classes 94 sentences 2\n  kim gave sandy a book\n  kim had given sandy a book\nitem 2 no-mrs 7\n"
STRUCTURE = '. t\n.A cons\n.A.FIRST "it\'s \\"so\\" <b>"\n.A.REST cons\n.A.REST.FIRST a\n.A.REST.REST null\n.B = .A.REST.FIRST\n.C d\n.C.LAST "over a\nline\'s end"\n.C.LIST = .C.LAST\n'
TYPES = "*top*:\nstring: *top*\na: *top*\nb: *top*\nc: a b\nglbtype1: a b\nd: c glbtype1\n"

# Each wrong input, and what standard error must say of it.
WRONG = [
    ("item 1 classes 3 readings 2\n  (a \"a\")\n", "line 2: the report ends within item 1"),
    ("item 1 classes 3 readings 1\n  (a \"a\"\n", "line 2: expected two blanks and a tree"),
    ("item 1 classes 3 readings 0\nitem 3 classes 0 readings 0\n", "line 2: expected a line that begins `item 2 `"),
    ("item 1 classes 3 readings 1\n  (a \"a\")\n  [ TOP: h0 ]\n", "line 3: no MRS, at character 13"),
    ("item 1 scopes 1\n  top=h2 h4\n", "line 2: expected two blanks, `top=hA`"),
    ("item 1 same 2\n", "expected a last line `batch items"),
    ("item 1 classes 1\n  1 0:1 n (r 2)\n", "line 2: the maker '(r 2)' has a daughter that is no class"),
    (". t\n.A.B c\n", "line 2: the path '.A.B' stands here, and no node at '.A'"),
    ("a:\nb: a\nc: d\n", "line 3: the supertype 'd' of 'c' has no line"),
    ("a:\nb: a c\nc: b\n", "line 2: the type 'b' is below itself"),
    ("dogs bark\n", "line 1: got 'dogs bark'; expected what `lkb` writes"),
    ("", "line 1: the file is empty"),
    ("item 1 classes 3 readings \udcff\n", "line 1: isn't UTF-8"),
]

NODES = "[...document.querySelectorAll('.tree-drawing')].map((one) => [one.querySelectorAll('.node').length, [...one.querySelectorAll('.word')].map((word) => word.textContent).join(' ')])"
MEETING = """(() => {
  const bad = [];
  for (const svg of document.querySelectorAll('svg')) {
    const view = svg.viewBox.baseVal;
    const boxes = [...svg.querySelectorAll('.node .back, .box > .frame, .class .bar-box')].map((one) => {
      const box = one.getBBox(), at = one.getCTM().inverse ? svg.getScreenCTM().inverse().multiply(one.getScreenCTM()) : null;
      return { x: box.x + at.e, y: box.y + at.f, w: box.width, h: box.height, name: one.parentNode.textContent };
    });
    boxes.sort((a, b) => a.y - b.y || a.x - b.x);
    for (let k = 0; k < boxes.length; k++) {
      const a = boxes[k];
      for (let m = k + 1; m < boxes.length && boxes[m].y < a.y + a.h - .6; m++) {
        const b = boxes[m];
        if (a.x < b.x + b.w - .6 && b.x < a.x + a.w - .6) bad.push('meet: ' + a.name.slice(0, 40) + ' / ' + b.name.slice(0, 40));
      }
    }
    const screen = svg.getScreenCTM().inverse();
    for (const text of svg.querySelectorAll('text')) {
      const box = text.getBBox(), at = screen.multiply(text.getScreenCTM());
      if (box.x + at.e < view.x - 1 || box.x + at.e + box.width > view.x + view.width + 1 || box.y + at.f + box.height > view.y + view.height + 5) bad.push('cut off: ' + text.textContent.slice(0, 40));
      const holder = text.parentNode.querySelector(':scope > .back, :scope > .frame, :scope > .bar-box');
      if (holder && box.width > holder.getBBox().width + 1) bad.push('wider than its box: ' + text.textContent.slice(0, 40));
    }
  }
  return bad;
})()"""
NAMELESS = "[...document.querySelectorAll('button, input, select, [role]')].filter((one) => !one.getAttribute('aria-label') && !one.textContent.trim()).map((one) => one.outerHTML.slice(0, 90))"
CONTRAST = """(() => {
  const pen = document.createElement('canvas').getContext('2d', { willReadFrequently: true }), spot = document.createElement('span');
  document.body.append(spot);
  const light = (name) => {
    spot.style.color = `var(${name})`;
    pen.fillStyle = getComputedStyle(spot).color;
    pen.fillRect(0, 0, 1, 1);
    const [r, g, b] = [...pen.getImageData(0, 0, 1, 1).data].map((one) => (one / 255 <= .04045 ? one / 255 / 12.92 : ((one / 255 + .055) / 1.055) ** 2.4));
    return .2126 * r + .7152 * g + .0722 * b;
  };
  const bad = [];
  for (const ink of ['--ink', '--dim', '--accent', '--own', '--gained', '--lost']) for (const back of ['--back', '--panel', '--soft', '--chosen']) {
    const [a, b] = [light(ink), light(back)].sort((x, y) => y - x), ratio = (a + .05) / (b + .05);
    if (ratio < 4.5) bad.push(`${ink} on ${back}: ${ratio.toFixed(2)}`);
  }
  spot.remove();
  return bad;
})()"""
