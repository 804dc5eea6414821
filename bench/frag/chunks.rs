//! What any pool takes at the least: the octets of `giop_bench frag-SIZE 1` laid into chunks of
//! 32 kB and read again, with no table, no block and no number. Beside `twin.rs`, whose one `Vec`
//! grows, it tells what is to be had by not growing.
const OCTETS: usize = 64 << 20;
const CHUNK: usize = 32 << 10;

fn main() {
    let size: usize = std::env::args()
        .nth(1)
        .and_then(|word| word.parse().ok())
        .unwrap_or(512)
        .min(4096);
    let chunks = gathered(size);
    let octets: usize = chunks.iter().map(Vec::len).sum();
    let sum = (octets as u64).rotate_left(5) ^ octets as u64;
    let sum = chunks
        .iter()
        .flat_map(|chunk| chunk.chunks(512))
        .fold(sum, |sum, part| sum.rotate_left(1) ^ u64::from(part[0]));
    println!("{sum}");
}

fn gathered(size: usize) -> Vec<Vec<u8>> {
    let mut chunks = Vec::new();
    let mut chunk = Vec::with_capacity(CHUNK);
    let mut piece = vec![0u8; size];
    for turn in 0..OCTETS / size {
        piece[0] = (turn % 251) as u8;
        let fits = piece.len().min(CHUNK - chunk.len());
        chunk.extend_from_slice(&piece[..fits]);
        if fits < piece.len() {
            chunks.push(std::mem::replace(&mut chunk, Vec::with_capacity(CHUNK)));
            chunk.extend_from_slice(&piece[fits..]);
        }
    }
    chunks.push(chunk);
    chunks
}
