// The listing of document 01, without the requests of 02, as a plain Rust program to measure the proved one against.
// Its means are ones that a proved program may use too: words of 64 bits, no threads, no vector instructions by name.
// Outputs with the same blocks go together; chunks of 8, 8, then 16 words of 64 patterns; for each chunk the good values
// once, then for each cell one flip in the lanes in which one of its open faults differs, followed from cell to cell to
// the outputs at which one of them is still to be decided.
//
// This is one mode of a larger program. What that mode does for the sake of the others and makes no use of is left in, so
// that its time is the one that was measured: the spare buffers, the counts of work, the dominators, `rep`.
use std::io::{Read, Write};

type Ref<T> = Result<T, (u32, usize)>;

struct Cell {
    kind: u8,
    first: usize,
    n: usize,
}
struct Netlist {
    i: usize,
    cells: Vec<Cell>,
    pins: Vec<usize>,
    outs: Vec<usize>,
}

struct Cur<'a> {
    b: &'a [u8],
    at: usize,
}
impl<'a> Cur<'a> {
    fn u8(&mut self) -> Ref<usize> {
        if self.at >= self.b.len() {
            return Err((1, self.b.len()));
        }
        self.at += 1;
        Ok(self.b[self.at - 1] as usize)
    }
    fn u16(&mut self) -> Ref<usize> {
        if self.b.len() - self.at < 2 {
            return Err((1, self.b.len()));
        }
        self.at += 2;
        Ok(self.b[self.at - 2] as usize + 256 * self.b[self.at - 1] as usize)
    }
}

fn read(b: &[u8]) -> Ref<Netlist> {
    let mut c = Cur { b, at: 0 };
    let mut used = [false; 256];
    used[0] = true;
    let i = c.u16()?;
    if i < 1 || i > 64 {
        return Err((2, 0));
    }
    for _ in 0..i {
        let p = c.u8()?;
        if used[p] {
            return Err((3, c.at - 1));
        }
        used[p] = true;
    }
    let nc = c.u16()?;
    if nc > 1024 {
        return Err((2, c.at - 2));
    }
    let mut cells = Vec::with_capacity(nc);
    let mut pins = Vec::with_capacity(4096);
    for _ in 0..nc {
        let kind = c.u8()?;
        if kind > 9 {
            return Err((4, c.at - 1));
        }
        let n = c.u8()?;
        let ok = match kind {
            2..=7 => (2..=8).contains(&n),
            _ => n == 1,
        };
        if !ok {
            return Err((5, c.at - 1));
        }
        if pins.len() + n > 4096 {
            return Err((7, c.at - 1));
        }
        cells.push(Cell { kind: kind as u8, first: pins.len(), n });
        for _ in 0..n {
            let v = c.u16()?;
            if v >= i + nc {
                return Err((6, c.at - 2));
            }
            pins.push(v);
        }
    }
    let o = c.u16()?;
    if o < 1 || o > 64 {
        return Err((2, c.at - 2));
    }
    if pins.len() + o > 4096 {
        return Err((7, c.at - 2));
    }
    let mut outs = Vec::new();
    for _ in 0..o {
        let p = c.u8()?;
        if used[p] {
            return Err((3, c.at - 1));
        }
        used[p] = true;
        let v = c.u16()?;
        if v >= i + nc {
            return Err((6, c.at - 2));
        }
        outs.push(v);
    }
    if c.at < b.len() {
        return Err((8, c.at));
    }
    for &v in &outs {
        pins.push(v);
    }
    Ok(Netlist { i, cells, pins, outs })
}

fn order(n: &Netlist) -> Option<Vec<usize>> {
    let mut st = vec![0u8; n.cells.len()];
    let mut out = Vec::with_capacity(n.cells.len());
    let mut stack: Vec<(usize, usize)> = Vec::with_capacity(n.cells.len());
    for root in 0..n.cells.len() {
        if st[root] != 0 {
            continue;
        }
        stack.push((root, 0usize));
        st[root] = 1;
        while let Some(top) = stack.last_mut() {
            let j = top.0;
            if top.1 < n.cells[j].n {
                let v = n.pins[n.cells[j].first + top.1];
                top.1 += 1;
                if v >= n.i {
                    let k = v - n.i;
                    match st[k] {
                        0 => {
                            st[k] = 1;
                            stack.push((k, 0));
                        }
                        1 => return None,
                        _ => {}
                    }
                }
            } else {
                st[j] = 2;
                out.push(j);
                stack.pop();
            }
        }
    }
    Some(out)
}

type Set = [u64; 4];
const NONE: Set = [0; 4];
fn up(a: Set, by: bool) -> Set {
    if !by {
        return a;
    }
    [a[0] << 1, a[1] << 1 | a[0] >> 63, a[2] << 1 | a[1] >> 63, a[3] << 1 | a[2] >> 63]
}
fn count(a: &Set) -> u32 {
    a.iter().map(|x| x.count_ones()).sum()
}
fn low(a: &Set) -> usize {
    for k in 0..4 {
        if a[k] != 0 {
            return 64 * k + a[k].trailing_zeros() as usize;
        }
    }
    0
}

struct Shape {
    order: Vec<usize>,
    d: usize,
    cls: u32,
    bad: usize,
    outs_of: Vec<u64>,     // net: outputs reached
    block_in: Vec<usize>,  // input of each block
    block_reach: Vec<Set>, // block * o + output
    pin_block: Vec<usize>,
    owner: Vec<usize>, // pin -> cell
}

fn shape(n: &Netlist) -> Ref<Shape> {
    let order = order(n).ok_or((9, 0))?;
    let nets = n.i + n.cells.len();
    let o = n.outs.len();
    let mut deep = vec![0usize; nets];
    for &j in &order {
        let c = &n.cells[j];
        let mut m = 0;
        for q in 0..c.n {
            m = m.max(deep[n.pins[c.first + q]]);
        }
        deep[n.i + j] = m + (c.kind >= 8) as usize;
    }
    for z in 0..o {
        if deep[n.outs[z]] > 255 {
            return Err((10, z));
        }
    }
    let d = (0..o).map(|z| deep[n.outs[z]]).max().unwrap();
    let first_out = n.pins.len() - o;
    let mut owner = vec![usize::MAX; n.pins.len()];
    for (j, c) in n.cells.iter().enumerate() {
        for q in 0..c.n {
            owner[c.first + q] = j;
        }
    }
    let mut outs_of = vec![0u64; nets];
    let mut reach = vec![NONE; nets * o];
    for z in 0..o {
        reach[n.outs[z] * o + z][0] |= 1;
        outs_of[n.outs[z]] |= 1 << z;
    }
    for &j in order.iter().rev() {
        let c = &n.cells[j];
        let by = c.kind >= 8;
        let zs = outs_of[n.i + j];
        for q in 0..c.n {
            let v = n.pins[c.first + q];
            outs_of[v] |= zs;
            let mut m = zs;
            while m != 0 {
                let z = m.trailing_zeros() as usize;
                m &= m - 1;
                let r = up(reach[(n.i + j) * o + z], by);
                let t = &mut reach[v * o + z];
                for k in 0..4 {
                    t[k] |= r[k];
                }
            }
        }
    }
    // blocks: branches of one input, joined where they meet at (output, depth)
    let mut block_in = Vec::new();
    let mut block_reach: Vec<Set> = Vec::new();
    let mut pin_block = vec![usize::MAX; n.pins.len()];
    let mut br_of: Vec<Vec<usize>> = vec![Vec::new(); n.i];
    for p in 0..n.pins.len() {
        if n.pins[p] < n.i {
            br_of[n.pins[p]].push(p);
        }
    }
    let mut seen = vec![usize::MAX; o * 256];
    let mut used: Vec<usize> = Vec::new();
    for x in 0..n.i {
        let br = &br_of[x];
        if br.is_empty() {
            block_in.push(x);
            block_reach.resize(block_reach.len() + o, NONE);
        }
        let mut lab: Vec<usize> = (0..br.len()).collect();
        fn find(lab: &mut [usize], mut a: usize) -> usize {
            while lab[a] != a {
                lab[a] = lab[lab[a]];
                a = lab[a];
            }
            a
        }
        let pr = |p: usize, z: usize| -> Set {
            if p >= first_out {
                if p - first_out == z {
                    [1, 0, 0, 0]
                } else {
                    NONE
                }
            } else {
                up(reach[(n.i + owner[p]) * o + z], n.cells[owner[p]].kind >= 8)
            }
        };
        let zs_of = |p: usize| -> u64 {
            if p >= first_out {
                1 << (p - first_out)
            } else {
                outs_of[n.i + owner[p]]
            }
        };
        for a in 0..br.len() {
            let mut m = zs_of(br[a]);
            while m != 0 {
                let z = m.trailing_zeros() as usize;
                m &= m - 1;
                let s = pr(br[a], z);
                for k in 0..4 {
                    let mut t = s[k];
                    while t != 0 {
                        let e = z * 256 + 64 * k + t.trailing_zeros() as usize;
                        t &= t - 1;
                        if seen[e] == usize::MAX {
                            seen[e] = a;
                            used.push(e);
                        } else {
                            let (p, q) = (find(&mut lab, seen[e]), find(&mut lab, a));
                            lab[p.max(q)] = p.min(q);
                        }
                    }
                }
            }
        }
        for &e in &used {
            seen[e] = usize::MAX;
        }
        used.clear();
        for a in 0..br.len() {
            let r = find(&mut lab, a);
            if r == a {
                pin_block[br[a]] = block_in.len();
                block_in.push(x);
                block_reach.resize(block_reach.len() + o, NONE);
            }
            let b = pin_block[br[r]];
            pin_block[br[a]] = b;
            let mut m = zs_of(br[a]);
            while m != 0 {
                let z = m.trailing_zeros() as usize;
                m &= m - 1;
                let s = pr(br[a], z);
                for k in 0..4 {
                    block_reach[b * o + z][k] |= s[k];
                }
            }
        }
    }
    let balanced = (0..n.i * o).all(|x| count(&reach[x]) <= 1);
    let lost = (0..block_in.len()).find(|&b| (0..o).any(|z| count(&block_reach[b * o + z]) > 1));
    let (cls, bad) = match lost {
        _ if balanced => (3, 0),
        None => (2, 0),
        Some(b) => (1, block_in[b]),
    };
    Ok(Shape { order, d, cls, bad, outs_of, block_in, block_reach, pin_block, owner })
}

const LANES: [u64; 6] = [
    0xAAAA_AAAA_AAAA_AAAA,
    0xCCCC_CCCC_CCCC_CCCC,
    0xF0F0_F0F0_F0F0_F0F0,
    0xFF00_FF00_FF00_FF00,
    0xFFFF_0000_FFFF_0000,
    0xFFFF_FFFF_0000_0000,
];

#[inline(always)]
fn g<T: Copy>(a: &[T], i: usize) -> T {
    debug_assert!(i < a.len());
    unsafe { *a.get_unchecked(i) }
}

#[inline(always)]
fn r<T>(a: &[T], i: usize) -> &T {
    debug_assert!(i < a.len());
    unsafe { a.get_unchecked(i) }
}

// The words of a cell.
#[inline(always)]
fn eval<const K: usize>(kind: u8, val: &[[u64; K]], src: &[u16]) -> [u64; K] {
    let mut a = *r(val, g(src, 0) as usize);
    match kind {
        0 | 8 => a,
        1 | 9 => {
            for k in 0..K {
                a[k] = !a[k];
            }
            a
        }
        2 => {
            for &s in &src[1..] {
                let b = r(val, s as usize);
                for k in 0..K {
                    a[k] &= b[k];
                }
            }
            a
        }
        3 => {
            for &s in &src[1..] {
                let b = r(val, s as usize);
                for k in 0..K {
                    a[k] |= b[k];
                }
            }
            a
        }
        4 => {
            for &s in &src[1..] {
                let b = r(val, s as usize);
                for k in 0..K {
                    a[k] &= b[k];
                }
            }
            for k in 0..K {
                a[k] = !a[k];
            }
            a
        }
        5 => {
            for &s in &src[1..] {
                let b = r(val, s as usize);
                for k in 0..K {
                    a[k] |= b[k];
                }
            }
            for k in 0..K {
                a[k] = !a[k];
            }
            a
        }
        6 => {
            for &s in &src[1..] {
                let b = r(val, s as usize);
                for k in 0..K {
                    a[k] ^= b[k];
                }
            }
            a
        }
        _ => {
            for &s in &src[1..] {
                let b = r(val, s as usize);
                for k in 0..K {
                    a[k] ^= b[k];
                }
            }
            for k in 0..K {
                a[k] = !a[k];
            }
            a
        }
    }
}

// The lanes in which a change of pin q alone changes the cell's value.
#[inline(always)]
fn sens<const K: usize>(kind: u8, val: &[[u64; K]], src: &[u16], q: usize) -> [u64; K] {
    let mut a = [!0u64; K];
    match kind {
        2 | 4 => {
            for (i, &s) in src.iter().enumerate() {
                if i != q {
                    let b = r(val, s as usize);
                    for k in 0..K {
                        a[k] &= b[k];
                    }
                }
            }
        }
        3 | 5 => {
            for (i, &s) in src.iter().enumerate() {
                if i != q {
                    let b = r(val, s as usize);
                    for k in 0..K {
                        a[k] &= !b[k];
                    }
                }
            }
        }
        _ => {}
    }
    a
}

// The lanes in which a value differs from one of the stuck values that are open.
#[inline(always)]
fn act<const K: usize>(open: u8, v: &[u64; K]) -> [u64; K] {
    let (m0, m1) = (0u64.wrapping_sub((open & 1) as u64), 0u64.wrapping_sub((open >> 1 & 1) as u64));
    let mut a = [0u64; K];
    for k in 0..K {
        a[k] = (v[k] & m0) | (!v[k] & m1);
    }
    a
}

#[inline(always)]
fn any<const K: usize>(a: &[u64; K]) -> bool {
    let mut x = 0;
    for k in 0..K {
        x |= a[k];
    }
    x != 0
}

#[inline(always)]
fn and<const K: usize>(a: &[u64; K], b: &[u64; K]) -> [u64; K] {
    let mut c = *a;
    for k in 0..K {
        c[k] &= b[k];
    }
    c
}

#[inline(always)]
fn xor<const K: usize>(a: &[u64; K], b: &[u64; K]) -> [u64; K] {
    let mut c = *a;
    for k in 0..K {
        c[k] ^= b[k];
    }
    c
}

#[inline(always)]
fn first<const K: usize>(a: &[u64; K]) -> usize {
    for k in 0..K {
        if a[k] != 0 {
            return 64 * k + a[k].trailing_zeros() as usize;
        }
    }
    usize::MAX
}

struct Buf<const K: usize> {
    val: Vec<[u64; K]>,            // slot -> good words; during a flip the faulty ones, restored after it
    touched: Vec<(u16, [u64; K])>, // slots changed by a flip, with their good words
    _spare: [Vec<[u64; K]>; 4],
    _more: Vec<u16>,
}

impl<const K: usize> Buf<K> {
    fn new(slots: usize) -> Self {
        let spare = [vec![[0; K]; slots], vec![[0; K]; slots], vec![[0; K]; slots], vec![[0; K]; slots]];
        Buf { val: vec![[0; K]; slots], touched: Vec::with_capacity(slots), _spare: spare, _more: vec![0; slots] }
    }
}

// The places that a change has come to; the lowest is taken first.
struct Pend {
    word: [u64; 16],
    sum: u32,
}
impl Pend {
    #[inline(always)]
    fn put(&mut self, p: usize) {
        self.word[p >> 6 & 15] |= 1 << (p & 63);
        self.sum |= 1 << (p >> 6);
    }
    #[inline(always)]
    fn take(&mut self) -> usize {
        let i = self.sum.trailing_zeros() as usize & 15;
        let x = self.word[i];
        let b = x.trailing_zeros() as usize;
        let x = x & (x - 1);
        self.word[i] = x;
        if x == 0 {
            self.sum &= self.sum - 1;
        }
        64 * i + b
    }
}

// The answers, by fault; out 255: none so far.
struct Answers {
    tries: Vec<u32>,
    out: Vec<u8>,
    pat: Vec<u32>,
}
#[derive(Default)]
struct Work {
    good: u64,
    evals: u64,
    stems: u64,
    chunks: u64,
    sens: u64,
}

fn number(t: &mut Vec<u8>, mut x: usize) {
    let mut b = [0u8; 20];
    let mut i = 20;
    loop {
        i -= 1;
        b[i] = b'0' + (x % 10) as u8;
        x /= 10;
        if x == 0 {
            break;
        }
    }
    t.extend_from_slice(&b[i..]);
}

// The cells behind outputs with the same blocks, renumbered: slots 0..w are the blocks, slot w+p the cell at place p of an
// order in which sources come first. und: the outputs at which a fault is still to be decided (reached, of this group,
// below the best found so far), for stuck 0 and stuck 1.
struct Group {
    w: usize,
    m: usize,
    kind: Vec<u8>,
    at: Vec<u32>,  // place -> kind, first pin (at[m] = end)
    src: Vec<u16>, // pin -> slot
    fan_at: Vec<u32>,
    fan: Vec<u16>,    // slot -> places that read it
    outs: Vec<u64>,   // slot -> outputs of the group that it reaches
    drives: Vec<u64>, // slot -> outputs of the group whose net it is
    net_und: Vec<[u64; 2]>,
    pin_und: Vec<[u64; 2]>,
    slot_und: Vec<u64>,      // union over the slot's own fault and its cell's pins
    zpin_und: Vec<[u64; 2]>, // output pins
    dom: Vec<u16>,
    _is_dom: Vec<bool>,
}

// One chunk of K words: the good words, then all open faults. Gives the outputs at which one of them is still open.
#[inline(never)]
fn chunk<const K: usize>(
    c: &mut Group,
    multi: &mut Vec<(usize, Vec<usize>, [u64; 2])>,
    buf: &mut Buf<K>,
    outd: &mut [[u64; K]],
    oslot: &[usize],
    ins: &dyn Fn(usize, usize) -> u64,
    uall: u64,
    hit: &mut dyn FnMut(u8, usize, usize, usize, usize),
    wk: &mut Work,
) -> u64 {
    let (w, m) = (c.w, c.m);
    wk.chunks += 1;
    for s in 0..w {
        for k in 0..K {
            buf.val[s][k] = ins(s, k);
        }
    }
    for p in 0..m {
        if g(&c.outs, w + p) & uall == 0 {
            continue;
        }
        let (a, b) = (g(&c.at, p) as usize, g(&c.at, p + 1) as usize);
        let v = eval(g(&c.kind, p), &buf.val, unsafe { c.src.get_unchecked(a..b) });
        buf.val[w + p] = v;
        wk.good += K as u64;
    }
    let mut pend = Pend { word: [0; 16], sum: 0 };
    let mut left = 0u64;
    // follows a change to the outputs u; leaves the differences there in outd, and gives the outputs with one
    macro_rules! go {
        ($u:expr) => {{
            let u: u64 = $u;
            let mut seen = 0u64;
            while pend.sum != 0 {
                let p = pend.take();
                let y = w + p;
                let (a, b) = (g(&c.at, p) as usize, g(&c.at, p + 1) as usize);
                let v = eval(g(&c.kind, p), &buf.val, unsafe { c.src.get_unchecked(a..b) });
                wk.evals += K as u64;
                let old = g(&buf.val, y);
                let d = xor(&v, &old);
                if any(&d) {
                    let mut z = g(&c.drives, y) & u;
                    seen |= z;
                    while z != 0 {
                        outd[z.trailing_zeros() as usize] = d;
                        z &= z - 1;
                    }
                    buf.touched.push((y as u16, old));
                    buf.val[y] = v;
                    for i in g(&c.fan_at, y) as usize..g(&c.fan_at, y + 1) as usize {
                        let q = g(&c.fan, i) as usize;
                        if g(&c.outs, w + q) & u != 0 {
                            pend.put(q);
                        }
                    }
                }
            }
            for &(s, v) in &buf.touched {
                buf.val[s as usize] = v;
            }
            buf.touched.clear();
            seen
        }};
    }
    for (i, mu) in multi.iter_mut().enumerate() {
        for v in 0..2usize {
            let u = mu.2[v];
            if u == 0 {
                continue;
            }
            let mut seen = 0;
            for &b in &mu.1 {
                let old = buf.val[b];
                buf.touched.push((b as u16, old));
                let mut d = old;
                for k in 0..K {
                    let sv = 0u64.wrapping_sub(v as u64);
                    d[k] ^= sv;
                    buf.val[b][k] = sv;
                }
                if any(&d) {
                    let mut z = c.drives[b] & u;
                    seen |= z;
                    while z != 0 {
                        outd[z.trailing_zeros() as usize] = d;
                        z &= z - 1;
                    }
                }
                for i in c.fan_at[b]..c.fan_at[b + 1] {
                    pend.put(c.fan[i as usize] as usize);
                }
            }
            wk.stems += 1;
            seen |= go!(u);
            let mut z = seen & u;
            if z != 0 {
                let zz = z.trailing_zeros() as usize;
                z = (1u64 << zz) - 1;
                hit(3, i, v, zz, first(&outd[zz]));
                mu.2[v] &= z;
            }
            left |= mu.2[v];
        }
    }
    for s in 0..w + m {
        let u = g(&c.slot_und, s);
        if u == 0 {
            continue;
        }
        let (a, b) = if s >= w { (c.at[s - w] as usize, c.at[s - w + 1] as usize) } else { (0, 0) };
        // the lanes in which some open fault differs here
        let mut nd = [0u64; K];
        for q in a..b {
            let f = &c.pin_und[q];
            let f = (f[0] != 0) as u8 | ((f[1] != 0) as u8) << 1;
            if f != 0 {
                let t = act(f, r(&buf.val, c.src[q] as usize));
                if any(&t) {
                    let se = sens(c.kind[s - w], &buf.val, &c.src[a..b], q - a);
                    wk.sens += K as u64;
                    for k in 0..K {
                        nd[k] |= t[k] & se[k];
                    }
                }
            }
        }
        let f = &c.net_und[s];
        let f = (f[0] != 0) as u8 | ((f[1] != 0) as u8) << 1;
        if f != 0 {
            let t = act(f, r(&buf.val, s));
            for k in 0..K {
                nd[k] |= t[k];
            }
        }
        if !any(&nd) {
            left |= u;
            continue;
        }
        let mut seen = c.drives[s] & u;
        let mut z = seen;
        while z != 0 {
            outd[z.trailing_zeros() as usize] = nd;
            z &= z - 1;
        }
        if c.fan_at[s + 1] > c.fan_at[s] {
            buf.touched.push((s as u16, buf.val[s]));
            for k in 0..K {
                buf.val[s][k] ^= nd[k];
            }
            for i in c.fan_at[s] as usize..c.fan_at[s + 1] as usize {
                let q = c.fan[i] as usize;
                if c.outs[w + q] & u != 0 {
                    pend.put(q);
                }
            }
            wk.stems += 1;
            seen |= go!(u);
        }
        if seen == 0 {
            left |= u;
            continue;
        }
        let mut un = 0;
        for q in a..=b {
            let f = if q == b { &mut c.net_und[s] } else { &mut c.pin_und[q] };
            if f[0] | f[1] == 0 {
                continue;
            }
            let se = if q == b { [!0; K] } else { sens(c.kind[s - w], &buf.val, &c.src[a..b], q - a) };
            for v in 0..2usize {
                let mut z = f[v] & seen;
                if z != 0 {
                    let t = and(&act(1 << v, &buf.val[if q == b { s } else { c.src[q] as usize }]), &se);
                    while z != 0 {
                        let zz = z.trailing_zeros() as usize;
                        z &= z - 1;
                        let h = and(&t, &outd[zz]);
                        if any(&h) {
                            hit(if q == b { 0 } else { 1 }, if q == b { s } else { q }, v, zz, first(&h));
                            f[v] &= (1u64 << zz) - 1;
                            break;
                        }
                    }
                }
                un |= f[v];
            }
        }
        c.slot_und[s] = un;
        left |= un;
    }
    for (z, f) in c.zpin_und.iter_mut().enumerate() {
        for v in 0..2usize {
            if f[v] != 0 {
                let t = act(1 << v, &buf.val[oslot[z]]);
                if any(&t) {
                    hit(2, z, v, z, first(&t));
                    f[v] = 0;
                }
            }
            left |= f[v];
        }
    }
    left
}

// The answers of all faults that reach no wide output.
fn search(
    n: &Netlist,
    s: &Shape,
    blocks_of: &[Vec<usize>],
    wide: u64,
    open: &[u8],
    res: &mut Answers,
    wk: &mut Work,
    reached: &dyn Fn(usize) -> u64,
) {
    let o = n.outs.len();
    let nets = n.i + n.cells.len();
    let nb = s.block_in.len();
    let first_out = n.pins.len() - o;
    let sites = nets + n.pins.len();
    let slots = 16 + n.cells.len();
    let mut b1 = Buf::<1>::new(slots);
    let mut b2 = Buf::<2>::new(slots);
    let mut b4 = Buf::<4>::new(slots);
    let mut b8 = Buf::<8>::new(slots);
    let mut b16 = Buf::<16>::new(slots);
    let (mut d1, mut d2, mut d4, mut d8, mut d16) =
        (vec![[0u64; 1]; o], vec![[0u64; 2]; o], vec![[0u64; 4]; o], vec![[0u64; 8]; o], vec![[0u64; 16]; o]);
    let mut slot_of = vec![usize::MAX; nb + n.cells.len()];
    let mut done = wide;
    for z0 in 0..o {
        if done >> z0 & 1 == 1 {
            continue;
        }
        let bl = &blocks_of[z0];
        let w = bl.len();
        let mut grp = 0u64;
        for z in z0..o {
            if done >> z & 1 == 0 && blocks_of[z] == *bl {
                grp |= 1 << z;
            }
        }
        done |= grp;
        let und = |site: usize, res: &Answers| -> [u64; 2] {
            let mut r = [0; 2];
            for v in 0..2 {
                if open[site] >> v & 1 == 1 {
                    let best = res.out[2 * site + v];
                    r[v] = reached(site) & grp & if best < 64 { (1u64 << best) - 1 } else { !0 };
                }
            }
            r
        };
        let mut c = Group {
            w,
            m: 0,
            kind: Vec::new(),
            at: vec![0],
            src: Vec::new(),
            fan_at: Vec::new(),
            fan: Vec::new(),
            outs: Vec::new(),
            drives: Vec::new(),
            net_und: vec![[0; 2]; w],
            pin_und: Vec::new(),
            slot_und: vec![0; w],
            zpin_und: vec![[0; 2]; o],
            dom: Vec::new(),
            _is_dom: Vec::new(),
        };
        let mut gpin: Vec<u32> = Vec::new();
        let mut gnet: Vec<u32> = vec![u32::MAX; w];
        let mut uall = 0;
        for (i, &b) in bl.iter().enumerate() {
            slot_of[b] = i;
            c.outs.push(grp);
        }
        for &j in &s.order {
            if s.outs_of[n.i + j] & grp == 0 {
                continue;
            }
            let cell = &n.cells[j];
            slot_of[nb + j] = w + c.m;
            let mut su = 0;
            for p in cell.first..cell.first + cell.n {
                let v = n.pins[p];
                c.src.push(slot_of[if v < n.i { s.pin_block[p] } else { nb + v - n.i }] as u16);
                gpin.push(p as u32);
                let f = und(nets + p, res);
                c.pin_und.push(f);
                su |= f[0] | f[1];
            }
            let f = und(n.i + j, res);
            c.net_und.push(f);
            su |= f[0] | f[1];
            c.slot_und.push(su);
            uall |= su;
            c.kind.push(cell.kind);
            c.at.push(c.src.len() as u32);
            c.outs.push(s.outs_of[n.i + j] & grp);
            gnet.push((n.i + j) as u32);
            c.m += 1;
        }
        let total = w + c.m;
        c.fan_at = vec![0; total + 1];
        for &x in &c.src {
            c.fan_at[x as usize + 1] += 1;
        }
        for x in 0..total {
            c.fan_at[x + 1] += c.fan_at[x];
        }
        c.fan = vec![0; c.src.len()];
        let mut fill = c.fan_at.clone();
        for p in 0..c.m {
            for q in c.at[p]..c.at[p + 1] {
                let x = c.src[q as usize] as usize;
                c.fan[fill[x] as usize] = p as u16;
                fill[x] += 1;
            }
        }
        c.drives = vec![0; total];
        let mut oslot = vec![0; o];
        for z in 0..o {
            if grp >> z & 1 == 1 {
                let v = n.outs[z];
                oslot[z] = slot_of[if v < n.i { s.pin_block[first_out + z] } else { nb + v - n.i }];
                c.drives[oslot[z]] |= 1 << z;
                c.zpin_und[z] = und(nets + first_out + z, res);
                uall |= c.zpin_und[z][0] | c.zpin_und[z][1];
            }
        }
        let mut multi: Vec<(usize, Vec<usize>, [u64; 2])> = Vec::new();
        let mut i = 0;
        while i < w {
            let x = s.block_in[bl[i]];
            let mut e = i + 1;
            while e < w && s.block_in[bl[e]] == x {
                e += 1;
            }
            let f = und(x, res);
            uall |= f[0] | f[1];
            if e - i == 1 {
                c.net_und[i] = f;
                c.slot_und[i] = f[0] | f[1];
                gnet[i] = x as u32;
            } else if f[0] | f[1] != 0 {
                multi.push((x, (i..e).collect(), f));
            }
            i = e;
        }
        c.dom = vec![total as u16; total + 1];
        for x in (0..total).rev() {
            if c.drives[x] != 0 || c.fan_at[x] == c.fan_at[x + 1] {
                continue;
            }
            let mut a = w + c.fan[c.fan_at[x] as usize] as usize;
            for i in c.fan_at[x] + 1..c.fan_at[x + 1] {
                let mut b = w + c.fan[i as usize] as usize;
                while a != b {
                    if a < b {
                        a = c.dom[a] as usize;
                    } else {
                        b = c.dom[b] as usize;
                    }
                }
            }
            c.dom[x] = a as u16;
        }
        c._is_dom = vec![false; total + 1];
        let _last: Vec<usize> = (0..total)
            .map(|x| if c.fan_at[x + 1] > c.fan_at[x] { w + c.fan[c.fan_at[x + 1] as usize - 1] as usize } else { 0 })
            .collect();
        let words = if w > 6 { 1usize << (w - 6) } else { 1 };
        let msites: Vec<usize> = multi.iter().map(|m| m.0).collect();
        macro_rules! run {
            ($k:expr, $ins:expr, $pat:expr) => {{
                let pat = $pat;
                let ins = $ins;
                let mut hit = |what: u8, i: usize, v: usize, z: usize, lane: usize| {
                    let site = match what {
                        0 => gnet[i] as usize,
                        1 => nets + gpin[i] as usize,
                        2 => nets + first_out + i,
                        _ => msites[i],
                    };
                    res.out[2 * site + v] = z as u8;
                    res.pat[2 * site + v] = pat(lane);
                };
                uall = match $k {
                    1 => chunk(&mut c, &mut multi, &mut b1, &mut d1, &oslot, &ins, uall, &mut hit, wk),
                    2 => chunk(&mut c, &mut multi, &mut b2, &mut d2, &oslot, &ins, uall, &mut hit, wk),
                    4 => chunk(&mut c, &mut multi, &mut b4, &mut d4, &oslot, &ins, uall, &mut hit, wk),
                    8 => chunk(&mut c, &mut multi, &mut b8, &mut d8, &oslot, &ins, uall, &mut hit, wk),
                    _ => chunk(&mut c, &mut multi, &mut b16, &mut d16, &oslot, &ins, uall, &mut hit, wk),
                };
            }};
        }
        let mut word = 0;
        while word < words && uall != 0 {
            let mut k = 16;
            while k > 1 && word & (k - 1) != 0 || k > word.max(8) {
                k /= 2;
            }
            while k > words {
                k /= 2;
            }
            run!(
                k,
                |s: usize, k: usize| -> u64 {
                    if s < 6 {
                        LANES[s]
                    } else {
                        0u64.wrapping_sub(((word + k) >> (s - 6) & 1) as u64)
                    }
                },
                |lane: usize| (word * 64 + lane) as u32
            );
            word += k;
        }
    }
    for f in 0..2 * sites {
        let best = res.out[f];
        let mut m = reached(f >> 1) & if best < 64 { (1u64 << best) - 1 } else { !0 };
        let mut t = if best < 64 { res.pat[f] + 1 } else { 0 };
        if reached(f >> 1) & wide != 0 {
            continue;
        }
        while m != 0 {
            t += 1 << blocks_of[m.trailing_zeros() as usize].len();
            m &= m - 1;
        }
        res.tries[f] = t;
    }
}

fn list(n: &Netlist, s: &Shape, text: &mut Vec<u8>, wk: &mut Work) {
    let o = n.outs.len();
    let nets = n.i + n.cells.len();
    let nb = s.block_in.len();
    let first_out = n.pins.len() - o;
    writeln!(text, "in {} cells {} out {} depth {} class {} blocks {}", n.i, n.cells.len(), o, s.d, s.cls, nb).unwrap();
    let sites = nets + n.pins.len();
    let mut blocks_of: Vec<Vec<usize>> = Vec::new();
    let mut wide = 0u64;
    for z in 0..o {
        let b: Vec<usize> = (0..nb).filter(|&b| s.block_reach[b * o + z] != NONE).collect();
        if b.len() > 16 {
            wide |= 1 << z;
        }
        blocks_of.push(b);
    }
    let reached = |site: usize| -> u64 {
        if site < nets {
            s.outs_of[site]
        } else if site - nets >= first_out {
            1 << (site - nets - first_out)
        } else {
            s.outs_of[n.i + s.owner[site - nets]]
        }
    };
    // bit v of a site: its fault stuck at v is looked for
    let mut open = vec![0u8; sites];
    for x in 0..sites {
        open[x] = if reached(x) & wide != 0 { 0 } else { 3 };
    }
    let rep: Vec<u32> = (0..2 * sites as u32).collect();
    let mut res = Answers { tries: vec![0; sites * 2], out: vec![255; sites * 2], pat: vec![0; sites * 2] };
    let slots = nets.max(nb + n.cells.len()) + 1;
    let _b1 = Buf::<1>::new(slots);
    let _b2 = Buf::<2>::new(slots);
    let _b4 = Buf::<4>::new(slots);
    let _b8 = Buf::<8>::new(slots);
    let _b16 = Buf::<16>::new(slots);
    let _slot_of = vec![usize::MAX; nb + n.cells.len()];
    search(n, s, &blocks_of, wide, &open, &mut res, wk, &reached);
    // the text
    let line = (n.i + 1) * (s.d + 1);
    let mut blank = vec![b'0'; line];
    for t in 0..=s.d {
        blank[t * (n.i + 1)] = b' ';
    }
    for site in 0..sites {
        let rs = reached(site);
        for v in 0..2usize {
            if site < nets {
                text.push(b'n');
                number(text, site);
            } else {
                text.push(b'p');
                number(text, site - nets);
            }
            text.extend_from_slice(if v == 0 { b"/0 " } else { b"/1 " });
            if rs & wide != 0 {
                text.extend_from_slice(b"refused 16 at ");
                number(text, (rs & wide).trailing_zeros() as usize);
                text.push(b'\n');
                continue;
            }
            let f = rep[2 * site + v] as usize;
            let z = res.out[f] as usize;
            if z == 255 {
                text.extend_from_slice(b"untestable tries ");
                number(text, res.tries[f] as usize);
                text.push(b'\n');
                continue;
            }
            text.extend_from_slice(b"out ");
            number(text, z);
            text.extend_from_slice(b" tries ");
            number(text, res.tries[f] as usize);
            text.extend_from_slice(b" play");
            let at = text.len();
            text.extend_from_slice(&blank);
            for (bit, &b) in blocks_of[z].iter().enumerate() {
                if res.pat[f] >> bit & 1 == 1 {
                    text[at + (s.d - low(&s.block_reach[b * o + z])) * (n.i + 1) + 1 + s.block_in[b]] = b'1';
                }
            }
            text.push(b'\n');
        }
    }
}

fn main() {
    let mut bytes = Vec::new();
    std::io::stdin().read_to_end(&mut bytes).unwrap();
    let mut text: Vec<u8> = Vec::new();
    let mut wk = Work::default();
    match read(&bytes).and_then(|n| {
        let s = shape(&n)?;
        Ok((n, s))
    }) {
        Err((no, at)) => writeln!(text, "refused {} at {}", no, at).unwrap(),
        Ok((n, s)) => {
            if s.cls == 1 {
                writeln!(text, "refused 11 at {}", s.bad).unwrap();
            } else {
                list(&n, &s, &mut text, &mut wk);
            }
        }
    }
    std::io::stdout().write_all(&text).unwrap();
}
