// The listing by the same method in plain Rust: 64 patterns a word, one fault at a time, the whole cone for the good and for the faulty circuit.
use std::io::{Read, Write};

struct Cell {
    kind: u8,
    first: usize,
    count: usize,
}

struct Chip {
    inputs: usize,
    cells: Vec<Cell>,
    outs: usize,
    nets: Vec<usize>,
    order: Vec<usize>,
    branch: Vec<usize>,
}

fn word(file: &[u8], at: &mut usize) -> usize {
    *at += 2;
    file[*at - 2] as usize + 256 * file[*at - 1] as usize
}

fn read(file: &[u8]) -> Chip {
    let mut at = 0;
    let inputs = word(file, &mut at);
    at += inputs;
    let count = word(file, &mut at);
    let (mut cells, mut nets) = (Vec::new(), Vec::new());
    for _ in 0..count {
        let (kind, pins) = (file[at], file[at + 1] as usize);
        at += 2;
        cells.push(Cell { kind, first: nets.len(), count: pins });
        for _ in 0..pins {
            nets.push(word(file, &mut at));
        }
    }
    let outs = word(file, &mut at);
    for _ in 0..outs {
        at += 1;
        nets.push(word(file, &mut at));
    }
    let mut placed = vec![false; count];
    let mut order = Vec::new();
    while order.len() < count {
        for j in 0..count {
            let c = &cells[j];
            let fed = |p: &usize| *p < inputs || placed[*p - inputs];
            if !placed[j] && nets[c.first..c.first + c.count].iter().all(fed) {
                placed[j] = true;
                order.push(j);
            }
        }
    }
    // the input that each net is or is a pad buffer of, and the input that each pin is a branch of; other numbers are no input
    let mut source: Vec<usize> = (0..inputs + count).collect();
    for &j in order.iter().filter(|&&j| cells[j].kind == 0) {
        let fed = source[nets[cells[j].first]];
        if fed < inputs {
            source[inputs + j] = fed;
        }
    }
    let mut branch: Vec<usize> = nets.iter().map(|&n| source[n]).collect();
    for j in (0..count).filter(|&j| source[inputs + j] < inputs) {
        branch[cells[j].first] = inputs;
    }
    Chip { inputs, cells, outs, nets, order, branch }
}

// Whether a stuck site decides what pin p sees: it is the pin, the net that it names, or for a branch the net or the pin of a pad buffer on its way.
fn decides(chip: &Chip, site: usize, p: usize) -> bool {
    let nets_n = chip.inputs + chip.cells.len();
    if p + nets_n == site || chip.nets[p] == site {
        return true;
    }
    let n = chip.nets[p];
    chip.branch[p] < chip.inputs && n >= chip.inputs && decides_buffer(chip, site, chip.cells[n - chip.inputs].first)
}

fn decides_buffer(chip: &Chip, site: usize, p: usize) -> bool {
    let (n, nets_n) = (chip.nets[p], chip.inputs + chip.cells.len());
    p + nets_n == site || n == site || n >= chip.inputs && decides_buffer(chip, site, chip.cells[n - chip.inputs].first)
}

// The outputs that each pin reaches at one depth, from those of the nets at the depth before; with `any` flip-flops count for nothing.
fn level(chip: &Chip, top: bool, any: bool, before: &[u64]) -> (Vec<u64>, Vec<u64>) {
    let cell_pins = chip.nets.len() - chip.outs;
    let mut pins = vec![0u64; chip.nets.len()];
    let mut at = vec![0u64; chip.inputs + chip.cells.len()];
    for z in 0..chip.outs {
        let bits = if top { 1u64 << z } else { 0 };
        pins[cell_pins + z] = bits;
        at[chip.nets[cell_pins + z]] |= bits;
    }
    for &j in chip.order.iter().rev() {
        let c = &chip.cells[j];
        let bits = if c.kind >= 8 && !any { before[chip.inputs + j] } else { at[chip.inputs + j] };
        for p in c.first..c.first + c.count {
            pins[p] = bits;
            at[chip.nets[p]] |= bits;
        }
    }
    (pins, at)
}

fn gate(kind: u8, sources: &[u16], slots: &[u64]) -> u64 {
    let all = || sources.iter().fold(!0, |a, &s| a & slots[s as usize]);
    let some = || sources.iter().fold(0, |a, &s| a | slots[s as usize]);
    let odd = || sources.iter().fold(0, |a, &s| a ^ slots[s as usize]);
    match kind {
        2 => all(),
        3 => some(),
        4 => !all(),
        5 => !some(),
        6 => odd(),
        7 => !odd(),
        1 | 9 => !slots[sources[0] as usize],
        _ => slots[sources[0] as usize],
    }
}

fn run(chip: &Chip, cone: &[usize], sources: &[u16], slots: &mut [u64]) {
    for &j in cone {
        let c = &chip.cells[j];
        slots[16 + j] = gate(c.kind, &sources[c.first..c.first + c.count], slots);
    }
}

const LANES: [u64; 6] = [
    0xaaaaaaaaaaaaaaaa, 0xcccccccccccccccc, 0xf0f0f0f0f0f0f0f0, 0xff00ff00ff00ff00, 0xffff0000ffff0000, 0xffffffff00000000,
];

fn main() {
    let mut file = Vec::new();
    std::io::stdin().read_to_end(&mut file).unwrap();
    let chip = read(&file);
    let pins_n = chip.nets.len();
    let cell_pins = pins_n - chip.outs;
    // levels, blocks
    let mut levels = Vec::new();
    let mut before = vec![0u64; chip.inputs + chip.cells.len()];
    let mut low: Vec<usize> = (0..pins_n).collect();
    loop {
        let (pins, at) = level(&chip, levels.is_empty(), false, &before);
        if at.iter().all(|&w| w == 0) {
            break;
        }
        for x in 0..chip.inputs {
            for z in 0..chip.outs {
                let met: Vec<usize> = (0..pins_n).filter(|&p| chip.branch[p] == x && pins[p] >> z & 1 == 1).collect();
                for pair in met.windows(2) {
                    let (a, b) = (low[pair[0]].min(low[pair[1]]), low[pair[0]].max(low[pair[1]]));
                    low.iter_mut().for_each(|l| if *l == b { *l = a });
                }
            }
        }
        levels.push(pins);
        before = at;
    }
    let depth = levels.len() - 1;
    let mut block = vec![0usize; pins_n];
    let mut blocks = 0;
    for x in 0..chip.inputs {
        let from = blocks;
        for p in 0..pins_n {
            if chip.branch[p] == x {
                block[p] = if low[p] == p { blocks += 1; blocks - 1 } else { block[low[p]] };
            }
        }
        blocks = blocks.max(from + 1);
    }
    let mut reached = vec![0u64; blocks];
    let mut class3 = true;
    let mut seen = vec![0u64; chip.inputs];
    for pins in &levels {
        let mut now = vec![0u64; chip.inputs];
        for p in (0..pins_n).filter(|&p| chip.branch[p] < chip.inputs) {
            reached[block[p]] |= pins[p];
            class3 &= seen[chip.branch[p]] & pins[p] == 0;
            now[chip.branch[p]] |= pins[p];
        }
        (0..chip.inputs).for_each(|x| seen[x] |= now[x]);
    }
    let (cone_of, _) = level(&chip, true, true, &before);
    let mut text = std::io::BufWriter::new(std::io::stdout());
    let class = if class3 { 3 } else { 2 };
    writeln!(text, "in {} cells {} out {} depth {} class {} blocks {}", chip.inputs, chip.cells.len(), chip.outs, depth, class, blocks).unwrap();
    let nets_n = chip.inputs + chip.cells.len();
    for site in 0..nets_n + pins_n {
        for stuck in 0..2u64 {
            let hit = |p: usize| if site < nets_n { chip.nets[p] == site } else { p == site - nets_n };
            let outs = (0..pins_n).filter(|&p| hit(p)).fold(0, |a, p| a | cone_of[p]);
            if site < nets_n { write!(text, "n{}/{}", site, stuck).unwrap() } else { write!(text, "p{}/{}", site - nets_n, stuck).unwrap() }
            let width = |z: usize| reached.iter().filter(|&&w| w >> z & 1 == 1).count();
            if let Some(z) = (0..chip.outs).find(|&z| outs >> z & 1 == 1 && width(z) > 16) {
                writeln!(text, " refused 16 at {}", z).unwrap();
                continue;
            }
            let mut tries = 0u64;
            let mut found = None;
            for z in (0..chip.outs).filter(|&z| outs >> z & 1 == 1) {
                let vars: Vec<usize> = (0..blocks).filter(|&b| reached[b] >> z & 1 == 1).collect();
                let slot = |p: usize| match chip.nets[p] {
                    _ if chip.branch[p] < chip.inputs => vars.iter().position(|&b| b == block[p]).map_or(1040, |s| s as u16),
                    n if n < chip.inputs => 1040,
                    n => (16 + n - chip.inputs) as u16,
                };
                let good: Vec<u16> = (0..pins_n).map(slot).collect();
                let bad: Vec<u16> = (0..pins_n).map(|p| if decides(&chip, site, p) { 1041 } else { good[p] }).collect();
                let cone: Vec<usize> = chip.order.iter().copied().filter(|&j| cone_of[chip.cells[j].first] >> z & 1 == 1).collect();
                let mut slots = vec![0u64; 1152];
                slots[1041] = 0u64.wrapping_sub(stuck);
                let total = 1u64 << vars.len();
                let mut q = 0;
                while 64 * q < total && found.is_none() {
                    for i in 0..vars.len() {
                        slots[i] = if i < 6 { LANES[i] } else { 0u64.wrapping_sub(q >> (i - 6) & 1) };
                    }
                    run(&chip, &cone, &good, &mut slots);
                    let g = slots[good[cell_pins + z] as usize];
                    run(&chip, &cone, &bad, &mut slots);
                    let f = slots[bad[cell_pins + z] as usize];
                    if g != f {
                        found = Some((z, 64 * q + (g ^ f).trailing_zeros() as u64, vars.clone()));
                    }
                    q += 1;
                }
                if let Some((_, m, _)) = &found {
                    tries += m + 1;
                    break;
                }
                tries += total;
            }
            let Some((z, m, vars)) = found else {
                writeln!(text, " untestable tries {}", tries).unwrap();
                continue;
            };
            write!(text, " out {} tries {} play", z, tries).unwrap();
            for t in 0..=depth {
                write!(text, " ").unwrap();
                for x in 0..chip.inputs {
                    let set = (0..pins_n).find(|&p| chip.branch[p] == x && levels[depth - t][p] >> z & 1 == 1);
                    let value = set.map_or(0, |p| m >> vars.iter().position(|&b| b == block[p]).unwrap() & 1);
                    write!(text, "{}", value).unwrap();
                }
            }
            writeln!(text).unwrap();
        }
    }
}
