#!/usr/bin/env bash
# Measures mail over rings: 4,000,000 messages from one sender to one box, on two threads, and prints how many went through a
# second; and, where there is a rustc, the same over a channel of Rust's std with room for 64. Works on a copy of the crates,
# which it proves and builds first: that takes some minutes.
set -u
top=$(cd "$(dirname "$(readlink -f "$0")")/.." && pwd) || exit 1
folder=$(mktemp -d) || exit 1
trap 'rm -rf "$folder"' EXIT
count=4000000

mkdir -p "$folder/crates/ring_speed/src"
cp "$top/HANDLES" "$folder"
printf 'lattice_laws:\nmail_contract: lattice_laws\nmail_rings: lattice_laws mail_contract rtrb\n' > "$folder/crates.txt"
printf 'ring_speed: lattice_laws mail_contract mail_rings\n' >> "$folder/crates.txt"
for crate in lattice_laws mail_contract mail_rings; do
    mkdir "$folder/crates/$crate"
    cp -r "$top/crates/$crate/src" "$top/crates/$crate/specs" "$top/crates/$crate/proofs" "$folder/crates/$crate"
done
cat > "$folder/crates/ring_speed/src/main.rt" <<END
//! Sends messages through a ring from one thread to another.
use lattice_laws::NoMemory;
use mail_contract::{Message, Rx, Tx};
use mail_rings::{RingRx, RingTx, rings};
use std::thread::{join_mut, yield_now};

#[derive(Clone, Copy, Drop)]
struct Number(u64);

impl Message for Number {
    fn copy(&self) -> Result<Number, NoMemory> {
        Ok(*self)
    }
}

fn send_all(tx: &mut RingTx<Number>) {
    let mut next = 0u64;
    for _ in 0..u64::MAX {
        if next == $count {
            return;
        }
        match tx.send(Number(next)) {
            Ok(()) => next = next.wrapping_add(1),
            Err(_) => yield_now(),
        }
    }
}

fn take_all(rx: &mut RingRx<Number>) -> u64 {
    let mut taken = 0u64;
    let mut sum = 0u64;
    for _ in 0..u64::MAX {
        if taken == $count {
            return sum;
        }
        match Rx::take(rx) {
            Ok(Some((_, Number(number)))) => {
                sum = sum.wrapping_add(number);
                taken = taken.wrapping_add(1);
            }
            _ => yield_now(),
        }
    }
    sum
}

fn main(rt: HostRuntime) {
    let Ok((mut txs, mut rx)) = rings(rt.alloc(), 1) else {
        return;
    };
    let Some(mut tx) = txs.pop() else {
        return;
    };
    let mut sum = 0u64;
    join_mut(&rt, &mut || send_all(&mut tx), &mut || sum = take_all(&mut rx));
    let _written = println!(rt; "{sum}");
}
END

# Prints how many messages went through a second, by the seconds that a command took.
rate() {
    local name=$1 start end
    shift
    start=$(date +%s%N)
    "$@" > /dev/null || return 1
    end=$(date +%s%N)
    echo "$name: $((count * 1000 / ((end - start) / 1000000))) messages a second"
}

(cd "$folder/crates/ring_speed" && rt run > "$folder/built" 2>&1) || { cat "$folder/built"; exit 1; }
program=$(find "$folder/crates/ring_speed/out" -type f -perm -u+x -name 'ring_speed*' | head -n 1)
rate "mail over rings" "$program"

if command -v rustc > /dev/null; then
    cat > "$folder/channel.rs" <<END
use std::sync::mpsc::sync_channel;

fn main() {
    let (tx, rx) = sync_channel::<u64>(64);
    let sender = std::thread::spawn(move || (0..${count}u64).for_each(|next| tx.send(next).unwrap()));
    let sum = rx.iter().fold(0u64, u64::wrapping_add);
    sender.join().unwrap();
    println!("{sum}");
}
END
    rustc -O -o "$folder/channel" "$folder/channel.rs" && rate "a channel of Rust's std with room for 64" "$folder/channel"
fi
