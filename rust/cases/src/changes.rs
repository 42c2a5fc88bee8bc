//! Changes that make good files nearly good, or worse.

use writing::{mend, Random, Step, Yard, BLOCK, PAYLOAD};

/// Changes one thing in a yard: mostly something that a check looks for.
pub fn change_yard(random: &mut Random, yard: &mut Yard) {
    let edges = yard.edges.len();
    let carts = yard.carts.len();
    let zone = random.below(yard.zones.len());
    let point = random.below(usize::from(yard.points) + 2) as u8;
    match random.below(17) {
        0 if edges > 0 => {
            yard.edges.remove(random.below(edges));
        }
        1 => {
            let other = random.below(usize::from(yard.points)) as u8;
            yard.join(point, other);
        }
        2 if edges > 1 => {
            let index = random.below(edges - 1);
            yard.edges.swap(index, index + 1);
        }
        3 if edges > 0 => {
            let edge = &mut yard.edges[random.below(edges)];
            *edge = (edge.1, edge.0);
        }
        4 if edges > 0 => {
            let index = random.below(edges);
            yard.edges.insert(index, yard.edges[index]);
        }
        5 if edges > 0 => yard.edges[random.below(edges)].1 = point,
        6 => yard.zones[zone].0 = random.below(6) as u8,
        7 => {
            let other = random.below(yard.zones.len());
            let (index, place) = (
                random.below(yard.zones[zone].1.len()),
                random.below(yard.zones[other].1.len()),
            );
            let kept = yard.zones[zone].1[index];
            yard.zones[zone].1[index] = yard.zones[other].1[place];
            yard.zones[other].1[place] = kept;
        }
        8 => *yard.zones[zone].1.last_mut().unwrap() = point,
        9 => {
            yard.zones[zone].1.pop();
        }
        10 => yard.points = yard.points.wrapping_add(*random.pick(&[1, 255])),
        11 => yard.carts.push((point, point)),
        12 if carts > 0 => {
            yard.carts.remove(random.below(carts));
        }
        13 if carts > 0 => yard.carts[random.below(carts)].0 = point,
        14 if carts > 0 => yard.carts[random.below(carts)].1 = point,
        _ if carts > 1 => {
            let (one, other) = (random.below(carts), random.below(carts));
            let goal = yard.carts[one].1;
            yard.carts[one].1 = yard.carts[other].1;
            yard.carts[other].1 = goal;
        }
        _ => (),
    }
}

/// Changes one thing in the steps of a plan.
pub fn change_steps(random: &mut Random, yard: &Yard, steps: &mut Vec<Step>) {
    let count = steps.len();
    if count == 0 {
        steps.push(random_step(random, yard));
        return;
    }
    let index = if random.once_in(2) {
        random.below(count)
    } else {
        random.below(count.min(3))
    };
    let cart = random.below(yard.carts.len() + 2) as u8;
    let point = random.below(usize::from(yard.points) + 1) as u8;
    let step = &mut steps[index];
    match random.below(14) {
        0 => {
            steps.remove(index);
        }
        1 => {
            let again = step.clone();
            steps.insert(index, again);
        }
        2 => steps.swap(index, random.below(count)),
        3 => steps.insert(index, random_step(random, yard)),
        4 => step.cart = cart,
        5 => step.from = point,
        6 => step.to = point,
        7 | 8 => step.behind = cart,
        9 => step.behind = 255,
        10 => (step.from, step.to) = (step.to, step.from),
        _ => {
            let filling = steps.iter_mut().filter(|step| !step.follow.is_empty());
            let mut filling: Vec<&mut Step> = filling.collect();
            if filling.is_empty() {
                steps.truncate(index);
                return;
            }
            let index = random.below(filling.len());
            let follow = &mut filling[index].follow;
            let (one, other) = (random.below(follow.len()), random.below(follow.len()));
            match random.below(4) {
                0 => follow[one] = cart,
                1 => {
                    follow.pop();
                }
                _ => follow.swap(one, other),
            }
        }
    }
}

/// A step over some track, with any carts.
fn random_step(random: &mut Random, yard: &Yard) -> Step {
    let carts = yard.carts.len();
    let (cart, behind) = (random.below(carts) as u8, random.below(carts) as u8);
    let behind = *random.pick(&[behind, 255]);
    let (from, to) = if yard.edges.is_empty() {
        (0, 0)
    } else {
        *random.pick(&yard.edges)
    };
    if random.once_in(2) {
        Step::new(cart, from, to, behind)
    } else {
        Step::new(cart, to, from, behind)
    }
}

/// Changes one thing in a move list.
pub fn change_moves(random: &mut Random, yard: &Yard, moves: &mut Vec<[u8; 3]>) {
    let step = random_step(random, yard);
    let fresh = [step.cart, step.from, step.to];
    let count = moves.len();
    if count == 0 {
        moves.push(fresh);
        return;
    }
    let index = if random.once_in(2) {
        random.below(count)
    } else {
        random.below(count.min(3))
    };
    match random.below(7) {
        0 => {
            moves.remove(index);
        }
        1 => moves.insert(index, moves[index]),
        2 => moves.swap(index, random.below(count)),
        3 => moves.insert(index, fresh),
        4 => moves[index][0] = random.below(yard.carts.len() + 1) as u8,
        5 => moves[index][random.between(1, 2)] = random.below(usize::from(yard.points) + 1) as u8,
        _ => moves.truncate(index),
    }
}

/// Changes a payload: a byte, its end, or its counts.
pub fn change_payload(random: &mut Random, payload: &mut Vec<u8>) {
    let index = if random.once_in(2) {
        random.below(payload.len())
    } else {
        random.below(payload.len().min(8))
    };
    match random.below(9) {
        0 => payload.truncate(index),
        1 => payload.truncate(payload.len() - 1),
        2 => payload.push(random.below(3) as u8),
        3 => payload.extend((0..random.between(1, 600)).map(|_| 0)),
        4 => payload.insert(index, random.byte()),
        5 => payload[index] = *random.pick(&[0, 1, 64, 65, 128, 129, 254, 255]),
        6 => payload[index] = payload[index].wrapping_add(1),
        7 => payload[index] = payload[index].wrapping_sub(1),
        _ => payload[index] = random.byte(),
    }
}

/// Makes a payload as long as a file of so many blocks takes, or longer by one
/// byte.
pub fn lengthen(random: &mut Random, payload: &mut Vec<u8>, blocks: usize) {
    let length = blocks * PAYLOAD + random.below(2);
    payload.resize(length.max(payload.len()), 0);
}

/// Changes the blocks of a file, with the checksum mended or not.
pub fn change_file(random: &mut Random, file: &mut Vec<u8>) {
    if file.is_empty() || !file.len().is_multiple_of(BLOCK) {
        return;
    }
    let byte = random.below(file.len());
    let block = byte / BLOCK;
    let start = block * BLOCK;
    match random.below(13) {
        0 => file[byte] ^= 1 << random.below(8),
        1 => {
            file[byte] ^= 1 << random.below(8);
            mend(file, block);
        }
        2 => {
            file[start + random.below(4)] = random.below(6) as u8;
            mend(file, block);
        }
        3 => {
            let fill = *random.pick(&[0, 1, 2, 250, 503, 504, 505, 512, 65535u16]);
            file[start + 4..start + 6].copy_from_slice(&fill.to_be_bytes());
            mend(file, block);
        }
        4 => {
            let fill = u16::from_be_bytes([file[start + 4], file[start + 5]]);
            let changed = fill.wrapping_add(*random.pick(&[1, u16::MAX]));
            file[start + 4..start + 6].copy_from_slice(&changed.to_be_bytes());
            mend(file, block);
        }
        5 => {
            let fill = usize::from(file[start + 4]) << 8 | usize::from(file[start + 5]);
            let padding = *random.pick(&[6 + fill.min(503), 509]);
            file[start + padding] = 1;
            mend(file, block);
        }
        6 => file.truncate(byte),
        7 => file.extend((0..random.between(1, 600)).map(|_| 0)),
        8 => file.clear(),
        9 => {
            let last = file[file.len() - BLOCK..].to_vec();
            file.extend_from_slice(&last);
        }
        10 => {
            let stored = random.pick(&[[0, 0], [255, 255]]);
            file[start + 510..start + 512].copy_from_slice(stored);
        }
        11 => balance(random, file, block),
        _ => {
            let other = random.below(file.len() / BLOCK) * BLOCK;
            let kept = file[start..start + BLOCK].to_vec();
            file.copy_within(other..other + BLOCK, start);
            file[other..other + BLOCK].copy_from_slice(&kept);
        }
    }
}

/// Changes two bytes of a block so that its words sum to FFFF, and stores
/// 0000 or FFFF as its checksum.
fn balance(random: &mut Random, file: &mut [u8], block: usize) {
    let word = block * BLOCK + 2 * random.between(3, 10);
    file[word..word + 2].copy_from_slice(&[0, 0]);
    mend(file, block);
    let end = (block + 1) * BLOCK;
    file.copy_within(end - 2..end, word);
    let stored = random.pick(&[[0, 0], [255, 255]]);
    file[end - 2..end].copy_from_slice(stored);
}
