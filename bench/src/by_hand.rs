//! What one would write in Rust for speed. The strict conversion of format 6 to format 1, and the upgrade back: for these two
//! formats alone, without extra bytes, the way down judged whole before anything is written, and then bytes moved. And X, Y and Z of
//! records in one pass, with nothing judged on the way.

pub const OLD: usize = 28;
pub const NEW: usize = 30;

fn scaled(new: &[u8; NEW]) -> i16 {
    i16::from_le_bytes([new[18], new[19]])
}

/// Whether a new record goes into the old format with every field the same.
fn fits(new: &[u8; NEW]) -> bool {
    let class = new[16];
    new[14] & 0x88 == 0
        && new[15] & 0x30 == 0
        && class < 32
        && class != 28
        && (new[15] & 8 != 0) == (class == 12)
        // whose nearest whole degree is from -90 to 90
        && (-15_083..=15_083).contains(&scaled(new))
}

/// The angle of a new record in whole degrees, halves away from zero.
fn rank(new: &[u8; NEW]) -> i32 {
    let scaled = i32::from(scaled(new));
    let half = if scaled < 0 { -500 } else { 500 };
    (6 * scaled + half) / 1000
}

pub fn to_old(run: &[u8], made: &mut [u8]) {
    let run = run.as_chunks::<NEW>().0;
    assert!(run.iter().all(fits));
    for (new, old) in run.iter().zip(made.as_chunks_mut::<OLD>().0) {
        old[..14].copy_from_slice(&new[..14]);
        old[14] = new[14] & 7 | (new[14] >> 4) << 3 | new[15] & 0xc0;
        old[15] = new[16] | new[15] << 5;
        old[16] = rank(new) as u8;
        old[17] = new[17];
        old[18..].copy_from_slice(&new[20..]);
    }
}

pub fn to_new(run: &[u8], made: &mut [u8]) {
    let run = run.as_chunks::<OLD>().0;
    for (old, new) in run.iter().zip(made.as_chunks_mut::<NEW>().0) {
        let class = old[15] & 31;
        let overlap = if class == 12 { 8 } else { 0 };
        // the whole degree in steps of 0.006, the fraction dropped
        let angle = (i32::from(old[16] as i8) * 500 / 3) as i16;
        new[..14].copy_from_slice(&old[..14]);
        new[14] = old[14] & 7 | (old[14] >> 3 & 7) << 4;
        new[15] = old[14] & 0xc0 | old[15] >> 5 | overlap;
        new[16] = class;
        new[17] = old[17];
        new[18..20].copy_from_slice(&angle.to_le_bytes());
        new[20..].copy_from_slice(&old[18..]);
    }
}

/// X, Y and Z of the records of a run, which are this long, to the fronts of three buffers.
pub fn xyz(run: &[u8], record: usize, to: (&mut [i32], &mut [i32], &mut [i32])) {
    let ((xs, ys, zs), count) = (to, run.len() / record);
    let room = xs.len().min(ys.len()).min(zs.len());
    assert!(record >= 12 && count <= room);
    for i in 0..count {
        // SAFETY: `i` is below the count, so that its record, of at least 12 bytes, lies in the run and its places in the buffers.
        unsafe {
            let [x, y, z] = *run.as_ptr().add(i * record).cast::<[[u8; 4]; 3]>();
            *xs.get_unchecked_mut(i) = i32::from_le_bytes(x);
            *ys.get_unchecked_mut(i) = i32::from_le_bytes(y);
            *zs.get_unchecked_mut(i) = i32::from_le_bytes(z);
        }
    }
}
