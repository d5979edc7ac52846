//! The plain Rust loops that `bm_speed` is measured beside: the same moves of the same bytes, with
//! the same lines.
//!
//! `loops` moves 64 KiB each time and prints checksums; `loops measure` moves 16 and 64 MiB and adds
//! the nanoseconds of processor time. A map is the list of its columns: number x goes to the XOR of
//! the columns that the bits of x pick.

/// A time of the system's clocks.
#[repr(C)]
struct Timespec {
    seconds: i64,
    nanoseconds: i64,
}

unsafe extern "C" {
    fn clock_gettime(clock: i32, time: *mut Timespec) -> i32;
}

/// The clock of the processor time that the program has used.
const PROCESS_CPU_TIME: i32 = 2;

fn nanoseconds_used() -> i64 {
    let mut time = Timespec {
        seconds: 0,
        nanoseconds: 0,
    };
    // SAFETY: the call writes the time alone.
    let answer = unsafe { clock_gettime(PROCESS_CPU_TIME, &mut time) };
    assert_eq!(answer, 0);
    time.seconds * 1_000_000_000 + time.nanoseconds
}

/// The nanoseconds that an act takes.
fn timed(act: impl FnOnce()) -> i64 {
    let start = nanoseconds_used();
    act();
    nanoseconds_used() - start
}

// Maps.

/// A number of a sequence of mixed numbers (splitmix64: Steele, Lea, Flood).
fn mixed(index: u64) -> u64 {
    let mut z = (index + 1).wrapping_mul(0x9e37_79b9_7f4a_7c15);
    z = (z ^ (z >> 30)).wrapping_mul(0xbf58_476d_1ce4_e5b9);
    z = (z ^ (z >> 27)).wrapping_mul(0x94d0_49bb_1331_11eb);
    z ^ (z >> 31)
}

/// The first nonsingular matrix of those that the mixed numbers give: attempt k has the n low bits
/// of the numbers from 64 k on as its rows.
fn random_columns(n: usize) -> Vec<u64> {
    let attempts = (0..).map(|attempt| {
        let rows: Vec<u64> = (0..n as u64).map(|i| mixed(64 * attempt + i)).collect();
        let column = |j: usize| (0..n).fold(0, |sum, i| sum | (rows[i] >> j & 1) << i);
        (0..n).map(column).collect::<Vec<u64>>()
    });
    let mut nonsingular = attempts.filter(|columns| Span::of(columns).vectors.len() == n);
    nonsingular.next().unwrap()
}

fn columns_of(map: &str, n: usize) -> Vec<u64> {
    if map == "random" {
        return random_columns(n);
    }
    let column = |j: usize| match map {
        "identity" => 1 << j,
        "gray" => (1 << j) ^ ((1 << j) >> 1),
        "transpose" => 1 << ((j + n / 2) % n),
        "leading-identity" if j < n / 2 => 1 << j,
        "leading-identity" => 1 << (n - 1 - (j - n / 2)),
        "32-streams" => 1 << ((j + n - 5) % n),
        "256-streams" => 1 << ((j + n - 8) % n),
        "morton" if j < n - n / 2 => 1 << (2 * j),
        "morton" => 1 << (2 * (j - (n - n / 2)) + 1),
        _ => 1 << (n - 1 - j),
    };
    (0..n).map(column).collect()
}

fn image(columns: &[u64], x: u64) -> u64 {
    let picked = columns.iter().enumerate().filter(|(j, _)| x >> j & 1 == 1);
    picked.fold(0, |sum, (_, column)| sum ^ column)
}

fn product(left: &[u64], right: &[u64]) -> Vec<u64> {
    right.iter().map(|column| image(left, *column)).collect()
}

/// The columns without their rows below `low`.
fn cut(columns: &[u64], low: usize) -> Vec<u64> {
    columns.iter().map(|column| column >> low).collect()
}

fn inverse(columns: &[u64]) -> Vec<u64> {
    let n = columns.len();
    let mut left = columns.to_vec();
    let mut right: Vec<u64> = (0..n).map(|j| 1 << j).collect();
    for i in 0..n {
        let pivot = (i..n).find(|j| left[*j] >> i & 1 == 1).unwrap();
        left.swap(i, pivot);
        right.swap(i, pivot);
        for j in (0..n).filter(|j| *j != i) {
            if left[j] >> i & 1 == 1 {
                left[j] ^= left[i];
                right[j] ^= right[i];
            }
        }
    }
    right
}

/// A span of vectors. Each has a leading bit that no vector after it has.
#[derive(Default)]
struct Span {
    vectors: Vec<u64>,
}

impl Span {
    fn of(vectors: &[u64]) -> Span {
        let mut span = Span::default();
        for vector in vectors {
            span.add(*vector);
        }
        span
    }

    /// What is left of a vector: 0 where it is in the span.
    fn rest(&self, vector: u64) -> u64 {
        self.vectors
            .iter()
            .fold(vector, |rest, other| rest.min(rest ^ other))
    }

    /// Adds a vector, where it is not in the span.
    fn add(&mut self, vector: u64) -> bool {
        let rest = self.rest(vector);
        if rest != 0 {
            self.vectors.push(rest);
        }
        rest != 0
    }
}

/// The XOR of the first columns of a map: entry t is that of columns 0 to t.
struct Steps {
    prefix: [u64; 53],
}

impl Steps {
    fn new(columns: &[u64]) -> Steps {
        let mut prefix = [0; 53];
        let mut sum = 0;
        for (entry, t) in prefix.iter_mut().zip(0..) {
            sum ^= columns.get(t).copied().unwrap_or(0);
            *entry = sum;
        }
        Steps { prefix }
    }

    /// The XOR of the images of a number and of the next one.
    #[inline(always)]
    fn after(&self, number: u64) -> u64 {
        self.prefix[(number.trailing_ones() as usize).min(52)]
    }
}

/// The images of a map's numbers one after another.
struct Stepper {
    here: u64,
    number: u64,
    steps: Steps,
}

impl Stepper {
    fn start(columns: &[u64], first: u64) -> Stepper {
        Stepper {
            here: image(columns, first),
            number: first,
            steps: Steps::new(columns),
        }
    }

    #[inline(always)]
    fn step(&mut self) {
        self.here ^= self.steps.after(self.number);
        self.number += 1;
    }
}

// Placing, one record after another.

/// Places the records of a row: record r goes to the place of number `first + r`.
#[inline(never)]
fn place_row<const W: usize>(load: &mut [u8], row: &[u8], columns: &[u64], first: u64) {
    let mut stepper = Stepper::start(columns, first);
    for record in row.chunks_exact(W) {
        let at = stepper.here as usize * W;
        load[at..at + W].copy_from_slice(record);
        stepper.step();
    }
}

// Placing in two steps.

/// A map as two: `outer` moves whole runs of 2^low records, and `inner` moves records within tiles.
struct Split {
    /// The map of the runs' numbers.
    outer: Vec<u64>,
    inner: TileMap,
}

/// The places have numbers, z that of `basis z`. A tile is the 2^tile places whose numbers differ
/// in their low bits alone. Number z gets the record of number `back z`, which is of the same tile.
struct TileMap {
    low: usize,
    tile: usize,
    basis: Vec<u64>,
    back: Vec<u64>,
}

/// The first step of a map, on the numbers of runs: its trailing block, where a dependent column
/// gets the first of the columns before `low` that makes it independent.
fn outer_columns(columns: &[u64], low: usize) -> Vec<u64> {
    let mut runs = cut(columns, low);
    let highs = runs.split_off(low);
    let mut span = Span::default();
    let independent = |run: u64| {
        let is_new = |other: &&u64| span.rest(**other) != 0;
        let chosen = match span.rest(run) {
            0 => run ^ runs.iter().find(is_new).unwrap(),
            _ => run,
        };
        span.add(chosen);
        chosen
    };
    highs.into_iter().map(independent).collect()
}

/// The places of a tile map's numbers, and the bits of a number within a tile: first the runs that
/// the low columns reach, then the others.
fn tile_basis(columns: &[u64], low: usize) -> (Vec<u64>, usize) {
    let mut span = Span::default();
    let mut basis: Vec<u64> = (0..low).map(|j| 1 << j).collect();
    let mut runs = cut(&columns[..low], low);
    runs.retain(|run| span.add(*run));
    let tile = low + runs.len();
    let units = (0..columns.len() - low).map(|i| 1 << i);
    runs.extend(units.filter(|run| span.add(*run)));
    basis.extend(runs.iter().map(|run| run << low));
    (basis, tile)
}

fn split(columns: &[u64], low: usize) -> Split {
    let outer = outer_columns(columns, low);
    let mut whole_outer: Vec<u64> = (0..low).map(|j| 1 << j).collect();
    whole_outer.extend(outer.iter().map(|run| run << low));
    let (basis, tile) = tile_basis(columns, low);
    let inner_inverse = product(&whole_outer, &inverse(columns));
    let back = product(&inverse(&basis), &product(&inner_inverse, &basis));
    Split {
        outer,
        inner: TileMap {
            low,
            tile,
            basis,
            back,
        },
    }
}

/// The split by the longest runs up to some bytes whose tiles fit into the row.
fn best_split(columns: &[u64], width: usize, row_bytes: usize) -> Split {
    let most_bytes: usize = match width {
        1 => 512,
        2..=8 => 1024,
        _ => 2048,
    };
    let lows = (0..=(most_bytes / width).ilog2() as usize).rev();
    let mut fitting = lows
        .map(|low| split(columns, low))
        .filter(|split| width << split.inner.tile <= row_bytes);
    fitting.next().unwrap()
}

/// Places the runs of a row: run r goes to the place of run `first + r`.
#[inline(never)]
fn place_runs(load: &mut [u8], row: &[u8], run_bytes: usize, outer: &[u64], first: u64) {
    let mut stepper = Stepper::start(outer, first);
    for run in row.chunks_exact(run_bytes) {
        let at = stepper.here as usize * run_bytes;
        load[at..at + run_bytes].copy_from_slice(run);
        stepper.step();
    }
}

fn record<const W: usize>(row: &[u8], i: u64) -> &[u8] {
    let at = i as usize * W;
    &row[at..at + W]
}

/// Where in the row the records of a run come from: the columns of the two lowest bits, and the
/// steps over the others.
struct RunOrder {
    one: u64,
    two: u64,
    others: Steps,
}

/// Fills a run with records of the row, four at a time, of which the first is record i.
#[inline(always)]
fn fill_run<const W: usize>(run: &mut [u8], row: &[u8], mut i: u64, order: &RunOrder) {
    let (one, two) = (order.one, order.two);
    for (four, number) in run.chunks_exact_mut(4 * W).zip(0..) {
        four[..W].copy_from_slice(record::<W>(row, i));
        four[W..2 * W].copy_from_slice(record::<W>(row, i ^ one));
        four[2 * W..3 * W].copy_from_slice(record::<W>(row, i ^ two));
        four[3 * W..].copy_from_slice(record::<W>(row, i ^ one ^ two));
        i ^= order.others.after(number);
    }
}

/// Moves the records of a load within its tiles: tile after tile the runs are gathered in the row,
/// and written again with their records in order. `low` is at least 2.
#[inline(never)]
fn settle<const W: usize>(load: &mut [u8], row: &mut [u8], tiles: &TileMap) {
    let (low, tile, n) = (tiles.low, tiles.tile, tiles.basis.len());
    let run_bytes = W << low;
    let row = &mut row[..W << tile];
    let runs = cut(&tiles.basis[low..], low);
    let within_tile = |number: &u64| number % (1 << tile);
    let back: Vec<u64> = tiles.back.iter().map(within_tile).collect();
    let mut gathered = Stepper::start(&runs, 0);
    let mut filled = Stepper::start(&runs, 0);
    let mut source = Stepper::start(&back[low..], 0);
    let order = RunOrder {
        one: back[0],
        two: back[1],
        others: Steps::new(&back[2..low]),
    };
    for _ in 0..1usize << (n - tile) {
        for piece in row.chunks_exact_mut(run_bytes) {
            let at = gathered.here as usize * run_bytes;
            piece.copy_from_slice(&load[at..at + run_bytes]);
            gathered.step();
        }
        for _ in 0..1usize << (tile - low) {
            let at = filled.here as usize * run_bytes;
            fill_run::<W>(&mut load[at..at + run_bytes], row, source.here, &order);
            filled.step();
            source.step();
        }
    }
}

// Butterflies.

fn number_of(bytes: &[u8]) -> u64 {
    u64::from_le_bytes(bytes.try_into().unwrap())
}

/// What a transform makes of a pair of numbers.
trait Kernel {
    fn pair(u: u64, v: u64) -> (u64, u64);
}

/// The butterfly.
struct Signs;

impl Kernel for Signs {
    #[inline(always)]
    fn pair(u: u64, v: u64) -> (u64, u64) {
        (u.wrapping_add(v), u.wrapping_sub(v))
    }
}

struct Sums;

impl Kernel for Sums {
    #[inline(always)]
    fn pair(u: u64, v: u64) -> (u64, u64) {
        (u, u.wrapping_add(v))
    }
}

struct Differences;

impl Kernel for Differences {
    #[inline(always)]
    fn pair(u: u64, v: u64) -> (u64, u64) {
        (u, v.wrapping_sub(u))
    }
}

/// A kernel on two bits of four numbers.
#[inline(always)]
fn quadruple<K: Kernel>(numbers: [u64; 4]) -> [u64; 4] {
    let (a, b) = K::pair(numbers[0], numbers[1]);
    let (c, d) = K::pair(numbers[2], numbers[3]);
    let (first, third) = K::pair(a, c);
    let (second, fourth) = K::pair(b, d);
    [first, second, third, fourth]
}

/// One level on records in order: pairs `half` bytes apart.
#[inline(never)]
fn level<K: Kernel>(load: &mut [u8], half: usize) {
    for block in load.chunks_exact_mut(2 * half) {
        let (low, high) = block.split_at_mut(half);
        for (x, y) in low.chunks_exact_mut(8).zip(high.chunks_exact_mut(8)) {
            let (first, second) = K::pair(number_of(x), number_of(y));
            x.copy_from_slice(&first.to_le_bytes());
            y.copy_from_slice(&second.to_le_bytes());
        }
    }
}

/// Two levels on records in order: pairs `quarter` and twice as many bytes apart.
#[inline(never)]
fn two_levels<K: Kernel>(load: &mut [u8], quarter: usize) {
    for block in load.chunks_exact_mut(4 * quarter) {
        let (low, high) = block.split_at_mut(2 * quarter);
        let (first, second) = low.split_at_mut(quarter);
        let (third, fourth) = high.split_at_mut(quarter);
        let lows = first.chunks_exact_mut(8).zip(second.chunks_exact_mut(8));
        let highs = third.chunks_exact_mut(8).zip(fourth.chunks_exact_mut(8));
        for ((x, y), (z, w)) in lows.zip(highs) {
            let numbers = quadruple::<K>([number_of(x), number_of(y), number_of(z), number_of(w)]);
            x.copy_from_slice(&numbers[0].to_le_bytes());
            y.copy_from_slice(&numbers[1].to_le_bytes());
            z.copy_from_slice(&numbers[2].to_le_bytes());
            w.copy_from_slice(&numbers[3].to_le_bytes());
        }
    }
}

fn number_at(load: &[u8], place: u64) -> u64 {
    number_of(record::<8>(load, place))
}

fn set_number(load: &mut [u8], place: u64, number: u64) {
    let at = 8 * place as usize;
    load[at..at + 8].copy_from_slice(&number.to_le_bytes());
}

/// Two levels on bits i and j of the numbers, i < j, where number x stands at its place by the map.
#[inline(never)]
fn two_levels_by_numbers<K: Kernel>(load: &mut [u8], columns: &[u64], i: usize, j: usize) {
    let mut others = columns.to_vec();
    let two = others.remove(j);
    let one = others.remove(i);
    let mut stepper = Stepper::start(&others, 0);
    for _ in 0..1u64 << others.len() {
        let place = stepper.here;
        let numbers = quadruple::<K>([
            number_at(load, place),
            number_at(load, place ^ one),
            number_at(load, place ^ two),
            number_at(load, place ^ one ^ two),
        ]);
        set_number(load, place, numbers[0]);
        set_number(load, place ^ one, numbers[1]);
        set_number(load, place ^ two, numbers[2]);
        set_number(load, place ^ one ^ two, numbers[3]);
        stepper.step();
    }
}

/// One level on bit i of the numbers.
#[inline(never)]
fn level_by_numbers<K: Kernel>(load: &mut [u8], columns: &[u64], i: usize) {
    let mut others = columns.to_vec();
    let one = others.remove(i);
    let mut stepper = Stepper::start(&others, 0);
    for _ in 0..1u64 << others.len() {
        let (place, partner) = (stepper.here, stepper.here ^ one);
        let (first, second) = K::pair(number_at(load, place), number_at(load, partner));
        set_number(load, place, first);
        set_number(load, partner, second);
        stepper.step();
    }
}

/// The transform level by level.
fn transform_by_ones<K: Kernel>(load: &mut [u8], columns: &[u64]) {
    for (i, column) in columns.iter().enumerate() {
        if columns.iter().all(|column| column.is_power_of_two()) {
            level::<K>(load, 8 * *column as usize);
        } else {
            level_by_numbers::<K>(load, columns, i);
        }
    }
}

/// The transform two levels at a time. In the maps that permute the bits of a number, the bits of
/// two levels are neighbours.
fn transform_by_twos<K: Kernel>(load: &mut [u8], columns: &[u64]) {
    let permutes_bits = columns.iter().all(|column| column.is_power_of_two());
    let last = columns.len() / 2 * 2;
    for i in (0..last).step_by(2) {
        if permutes_bits {
            two_levels::<K>(load, 8 * columns[i].min(columns[i + 1]) as usize);
        } else {
            two_levels_by_numbers::<K>(load, columns, i, i + 1);
        }
    }
    if last < columns.len() && permutes_bits {
        level::<K>(load, 8 * columns[last] as usize);
    } else if last < columns.len() {
        level_by_numbers::<K>(load, columns, last);
    }
}

/// The bits of a number in a block of 512 KiB.
const BLOCK_BITS: usize = 16;

/// The transform two levels at a time, where the low bits that keep their places go block by block.
fn transform_by_blocks<K: Kernel>(load: &mut [u8], columns: &[u64]) {
    let kept = columns.iter().enumerate().take_while(|(j, column)| **column == 1 << j);
    let bits = kept.count().min(BLOCK_BITS) / 2 * 2;
    if !columns.iter().all(|column| column.is_power_of_two()) || bits == 0 {
        return transform_by_twos::<K>(load, columns);
    }
    for block in load.chunks_exact_mut(8 << bits) {
        for i in (0..bits).step_by(2) {
            two_levels::<K>(block, 8 << i);
        }
    }
    let last = columns.len() / 2 * 2;
    for i in (bits..last).step_by(2) {
        two_levels::<K>(load, 8 * columns[i].min(columns[i + 1]) as usize);
    }
    if last < columns.len() {
        level::<K>(load, 8 * columns[last] as usize);
    }
}

/// Two levels on records in order, of bits with these distances in bytes, the first the less.
#[inline(never)]
fn two_levels_apart<K: Kernel>(load: &mut [u8], near: usize, far: usize) {
    for block in load.chunks_exact_mut(2 * far) {
        let (low, high) = block.split_at_mut(far);
        let lows = low.chunks_exact_mut(2 * near);
        for (low, high) in lows.zip(high.chunks_exact_mut(2 * near)) {
            let (first, second) = low.split_at_mut(near);
            let (third, fourth) = high.split_at_mut(near);
            let lows = first.chunks_exact_mut(8).zip(second.chunks_exact_mut(8));
            let highs = third.chunks_exact_mut(8).zip(fourth.chunks_exact_mut(8));
            for ((x, y), (z, w)) in lows.zip(highs) {
                let numbers = [number_of(x), number_of(y), number_of(z), number_of(w)];
                let numbers = quadruple::<K>(numbers);
                x.copy_from_slice(&numbers[0].to_le_bytes());
                y.copy_from_slice(&numbers[1].to_le_bytes());
                z.copy_from_slice(&numbers[2].to_le_bytes());
                w.copy_from_slice(&numbers[3].to_le_bytes());
            }
        }
    }
}

/// The transform over the bits of even number, two levels at a time.
fn transform_even<K: Kernel>(load: &mut [u8], columns: &[u64]) {
    let permutes_bits = columns.iter().all(|column| column.is_power_of_two());
    let last = columns.len() / 4 * 4;
    for i in (0..last).step_by(4) {
        let (one, two) = (columns[i], columns[i + 2]);
        if permutes_bits {
            two_levels_apart::<K>(load, 8 * one.min(two) as usize, 8 * one.max(two) as usize);
        } else {
            two_levels_by_numbers::<K>(load, columns, i, i + 2);
        }
    }
    for i in (last..columns.len()).step_by(2) {
        if permutes_bits {
            level::<K>(load, 8 * columns[i] as usize);
        } else {
            level_by_numbers::<K>(load, columns, i);
        }
    }
}

// The bytes that are moved, and the lines.

fn fill(bytes: &mut [u8], first: u64) {
    for (byte, number) in bytes.iter_mut().zip(first..) {
        *byte = (number.wrapping_mul(11400714819323198485) >> 56) as u8;
    }
}

fn checksum(bytes: &[u8]) -> u64 {
    bytes.iter().fold(14695981039346656037, |hash, byte| {
        (hash ^ u64::from(*byte)).wrapping_mul(1099511628211)
    })
}

fn buffer(bytes: usize) -> Vec<u8> {
    let mut buffer = vec![0; bytes];
    buffer.fill(1);
    buffer
}

/// What a move is of, in bytes.
#[derive(Clone, Copy)]
struct Sizes {
    measured: bool,
    load: usize,
    row: usize,
}

impl Sizes {
    fn rows(&self) -> usize {
        self.load / self.row
    }

    fn columns(&self, map: &str, width: usize) -> Vec<u64> {
        columns_of(map, (self.load / width).ilog2() as usize)
    }

    /// The split that is measured, and where nothing is measured one by runs of 8 records.
    fn split(&self, columns: &[u64], width: usize) -> Split {
        if self.measured {
            best_split(columns, width, self.row)
        } else {
            split(columns, 3)
        }
    }

    fn print(&self, act: &str, map: &str, width: usize, bytes: &[u8], nanoseconds: i64) {
        let (load, row) = (self.load >> 10, self.row >> 10);
        let hash = checksum(bytes);
        print!("{act} {map} {width} {load} {row} {hash:016x}");
        if self.measured {
            print!(" {nanoseconds}");
        }
        println!();
    }
}

/// Moves the rows of the pattern, and returns the nanoseconds of the moves alone.
fn move_rows(sizes: Sizes, row: &mut [u8], mut move_row: impl FnMut(&[u8], u64)) -> i64 {
    let mut spent = 0;
    for r in 0..sizes.rows() as u64 {
        fill(row, r * sizes.row as u64);
        spent += timed(|| move_row(row, r));
    }
    spent
}

fn copy(sizes: Sizes) {
    let mut load = buffer(sizes.load);
    let mut row = buffer(sizes.row);
    let spent = move_rows(sizes, &mut row, |row, r| {
        let at = r as usize * row.len();
        load[at..at + row.len()].copy_from_slice(row);
    });
    sizes.print("copy", "identity", 1, &load, spent);
}

fn place<const W: usize>(sizes: Sizes, map: &str) {
    let columns = sizes.columns(map, W);
    let mut load = buffer(sizes.load);
    let mut row = buffer(sizes.row);
    let count = (sizes.row / W) as u64;
    let spent = move_rows(sizes, &mut row, |row, r| {
        place_row::<W>(&mut load, row, &columns, r * count);
    });
    sizes.print("stepped", map, W, &load, spent);
}

fn place_in_two<const W: usize>(sizes: Sizes, map: &str) {
    let split = sizes.split(&sizes.columns(map, W), W);
    let run_bytes = W << split.inner.low;
    let mut load = buffer(sizes.load);
    let mut row = buffer(sizes.row);
    let count = (sizes.row / run_bytes) as u64;
    let mut spent = move_rows(sizes, &mut row, |row, r| {
        place_runs(&mut load, row, run_bytes, &split.outer, r * count);
    });
    spent += timed(|| settle::<W>(&mut load, &mut row, &split.inner));
    sizes.print("two-step", map, W, &load, spent);
}

/// A pass over an area of one load: rows are read into the row list and moved to the load, the
/// load is finished, and written to another area.
fn pass(
    sizes: Sizes,
    mut move_row: impl FnMut(&mut [u8], &[u8], u64),
    finish: impl FnOnce(&mut [u8], &mut [u8]),
) -> (Vec<u8>, i64) {
    let (mut input, mut target) = (buffer(sizes.load), buffer(sizes.load));
    let (mut load, mut row) = (buffer(sizes.load), buffer(sizes.row));
    fill(&mut input, 0);
    let spent = timed(|| {
        for (from, r) in input.chunks_exact(sizes.row).zip(0..) {
            row.copy_from_slice(from);
            move_row(&mut load, &row, r);
        }
        finish(&mut load, &mut row);
        for (to, from) in target
            .chunks_exact_mut(sizes.row)
            .zip(load.chunks_exact(sizes.row))
        {
            to.copy_from_slice(from);
        }
    });
    (target, spent)
}

fn pass_stepped<const W: usize>(sizes: Sizes, map: &str) {
    let columns = sizes.columns(map, W);
    let count = (sizes.row / W) as u64;
    let move_row = |load: &mut [u8], row: &[u8], r| place_row::<W>(load, row, &columns, r * count);
    let (target, spent) = pass(sizes, move_row, |_, _| {});
    sizes.print("pass-stepped", map, W, &target, spent);
}

fn pass_in_two<const W: usize>(sizes: Sizes, map: &str) {
    let split = sizes.split(&sizes.columns(map, W), W);
    let run_bytes = W << split.inner.low;
    let count = (sizes.row / run_bytes) as u64;
    let move_row = |load: &mut [u8], row: &[u8], r| {
        place_runs(load, row, run_bytes, &split.outer, r * count);
    };
    let (target, spent) = pass(sizes, move_row, |load, row| {
        settle::<W>(load, row, &split.inner)
    });
    sizes.print("pass", map, W, &target, spent);
}

fn transform(sizes: Sizes, map: &str, act: &str, levels: impl FnOnce(&mut [u8], &[u64])) {
    let columns = sizes.columns(map, 8);
    let mut load = buffer(sizes.load);
    fill(&mut load, 0);
    let spent = timed(|| levels(&mut load, &columns));
    sizes.print(act, map, 8, &load, spent);
}

const MAPS: [&str; 5] = ["identity", "gray", "transpose", "bit-reversal", "random"];

/// The placings that the passes of plans have.
const PLAN_MAPS: [&str; 4] = ["leading-identity", "32-streams", "256-streams", "morton"];

fn place_all(sizes: Sizes) {
    copy(sizes);
    for map in MAPS {
        place::<1>(sizes, map);
        place::<4>(sizes, map);
        place::<8>(sizes, map);
        place::<16>(sizes, map);
        place::<64>(sizes, map);
        place_in_two::<1>(sizes, map);
        place_in_two::<4>(sizes, map);
        place_in_two::<8>(sizes, map);
        place_in_two::<16>(sizes, map);
        place_in_two::<64>(sizes, map);
    }
}

fn place_plans(sizes: Sizes) {
    for map in PLAN_MAPS {
        place::<1>(sizes, map);
        place::<4>(sizes, map);
        place::<8>(sizes, map);
        place_in_two::<1>(sizes, map);
        place_in_two::<4>(sizes, map);
        place_in_two::<8>(sizes, map);
    }
}

fn transform_all(sizes: Sizes) {
    for map in ["identity", "gray", "bit-reversal"] {
        transform(sizes, map, "butterflies", transform_by_blocks::<Signs>);
        if sizes.measured {
            transform(sizes, map, "by-twos", transform_by_twos::<Signs>);
            transform(sizes, map, "by-ones", transform_by_ones::<Signs>);
        }
        transform(sizes, map, "sums", transform_by_blocks::<Sums>);
        transform(sizes, map, "differences", transform_by_blocks::<Differences>);
        transform(sizes, map, "even-sums", transform_even::<Sums>);
    }
}

fn pass_all(sizes: Sizes) {
    for map in MAPS {
        pass_in_two::<8>(sizes, map);
        pass_in_two::<64>(sizes, map);
        if sizes.measured {
            pass_stepped::<8>(sizes, map);
            pass_stepped::<64>(sizes, map);
        }
    }
}

fn main() {
    let measured = std::env::args()
        .nth(1)
        .is_some_and(|word| word == "measure");
    let sizes = |load_bits: u32, row_bits: u32| Sizes {
        measured,
        load: 1 << load_bits,
        row: 1 << row_bits,
    };
    if measured {
        for load_bits in [24, 26] {
            place_all(sizes(load_bits, 18));
            place_plans(sizes(load_bits, 18));
        }
        transform_all(sizes(24, 18));
        transform_all(sizes(26, 18));
        pass_all(sizes(24, 18));
    } else {
        place_all(sizes(16, 12));
        place_plans(sizes(16, 12));
        transform_all(sizes(16, 12));
        pass_all(sizes(16, 12));
    }
}
