//! The calls of document 01, with the starting place, the polynomials, the smaller work area and the half of an even modulus of document 02, written
//! from the pages alone and sharing no code with the library.

/// How a call ends: what it answers, or the documents' number and place.
pub type Verdict<T> = Result<T, (u64, usize)>;

pub fn ask(holds: bool, number: u64, place: usize) -> Verdict<()> {
    if holds {
        Ok(())
    } else {
        Err((number, place))
    }
}

/// Every element passes, or the place of the first that does not.
pub fn ask_all(list: &[u64], number: u64, passes: impl Fn(u64) -> bool) -> Verdict<()> {
    match list.iter().position(|x| !passes(*x)) {
        None => Ok(()),
        Some(place) => Err((number, place)),
    }
}

pub fn has_bits_at_or_above(word: u64, k: u64) -> bool {
    (k..64).any(|i| word >> i & 1 == 1)
}

pub fn mask(n: u64, k: u64, value: u64, masks: &[u64], out: &mut [u64]) -> Verdict<u64> {
    ask((2..=8).contains(&n), 1, 0)?;
    ask((1..=16).contains(&k), 2, 0)?;
    ask(!has_bits_at_or_above(value, k), 12, 0)?;
    ask(masks.len() as u64 == n - 1, 13, 0)?;
    ask_all(masks, 14, |m| !has_bits_at_or_above(m, k))?;
    ask(out.len() as u64 >= n, 10, 0)?;
    let mut last = value;
    for (i, m) in masks.iter().enumerate() {
        out[i] = *m;
        last ^= m;
    }
    out[masks.len()] = last;
    Ok(n)
}

/// a − b modulo q, for a and b below q.
fn minus(a: u64, b: u64, q: u64) -> u64 {
    (a + q - b) % q
}

/// Step 2: from the list A for j − 1 shares, the share b(j) and j − 1 random words to the list C for j shares.
fn one_share_more(q: u64, a: &[u64], b: u64, r: &[u64]) -> Vec<u64> {
    let mut list: Vec<u64> = a.iter().zip(r).map(|(a, r)| minus(*a, *r, q)).collect();
    list.push(r.iter().sum::<u64>() % q);
    for x in &mut list {
        *x = minus(*x, 2 * *x * b % q, q);
    }
    list[0] = (list[0] + b) % q;
    list
}

/// Step 3: each pair (i, m) with i < m takes one word, which share i gains and share m loses.
fn refresh(q: u64, list: &mut [u64], words: &[u64]) {
    let mut used = 0;
    for i in 0..list.len() {
        for m in i + 1..list.len() {
            list[i] = (list[i] + words[used]) % q;
            list[m] = minus(list[m], words[used], q);
            used += 1;
        }
    }
}

/// Questions 8 and 9: from the starting place on there are so many words, and each is below q. Answers the words.
pub fn ask_words(words: &[u64], start: u64, count: u64, q: u64) -> Verdict<&[u64]> {
    let end = start as u128 + count as u128;
    ask(words.len() as u128 >= end, 8, 0)?;
    let taken = &words[start as usize..end as usize];
    ask_all(taken, 9, |r| r < q).map_err(|(number, place)| (number, start as usize + place))?;
    Ok(taken)
}

/// Steps 1, 2 and 3: the n numbers of a shared bit, with its n(n − 1) words.
pub fn numbers_of_bit(q: u64, bits: &[u64], words: &[u64]) -> Vec<u64> {
    let mut list = vec![bits[0]];
    let mut rest = words;
    for b in &bits[1..] {
        let (next, later) = rest.split_at(list.len());
        list = one_share_more(q, &list, *b, next);
        rest = later;
    }
    refresh(q, &mut list, rest);
    list
}

/// The random words that a bit takes.
pub fn bit_words(n: u64) -> u64 {
    n * (n - 1)
}

/// One shared bit to n numbers, with the words from the starting place on. Answers the place after the last. Like every modulus of the page, q
/// is a 16-bit number.
pub fn convert_bit(n: u64, q: u64, bits: &[u64], words: &[u64], start: u64, out: &mut [u64]) -> Verdict<u64> {
    ask((2..=8).contains(&n), 1, 0)?;
    ask(q >= 3, 3, 0)?;
    ask(bits.len() as u64 == n, 4, 0)?;
    ask_all(bits, 6, |b| b <= 1)?;
    let taken = ask_words(words, start, bit_words(n), q)?;
    ask(out.len() as u64 >= n, 10, 0)?;
    out[..n as usize].copy_from_slice(&numbers_of_bit(q, bits, taken));
    Ok(start + bit_words(n))
}

pub fn open_string(n: u64, k: u64, shares: &[u64]) -> Verdict<u64> {
    ask((2..=8).contains(&n), 1, 0)?;
    ask((1..=16).contains(&k), 2, 0)?;
    ask(shares.len() as u64 == n, 4, 0)?;
    ask_all(shares, 6, |s| !has_bits_at_or_above(s, k))?;
    Ok(shares.iter().fold(0, |a, s| a ^ s))
}

pub fn open_residue(n: u64, q: u64, shares: &[u64]) -> Verdict<u64> {
    ask((2..=8).contains(&n), 1, 0)?;
    ask(q >= 3, 3, 0)?;
    ask(shares.len() as u64 == n, 15, 0)?;
    ask_all(shares, 16, |s| s < q)?;
    Ok(shares.iter().sum::<u64>() % q)
}

pub fn centre(q: u64, r: u64) -> Verdict<i64> {
    ask(q >= 3, 3, 0)?;
    ask(r < q, 17, 0)?;
    Ok(if 2 * r <= q { r as i64 } else { r as i64 - q as i64 })
}

fn weight(word: u64) -> i64 {
    (0..16).map(|i| (word >> i & 1) as i64).sum()
}

pub fn weight_difference(k: u64, x: u64, y: u64) -> Verdict<i64> {
    ask((1..=16).contains(&k), 2, 0)?;
    ask(!has_bits_at_or_above(x, k), 12, 0)?;
    ask(!has_bits_at_or_above(y, k), 12, 1)?;
    Ok(weight(x) - weight(y))
}

pub fn parameters(n: u64, k: u64, q: u64) -> Verdict<()> {
    ask((2..=8).contains(&n), 1, 0)?;
    ask((1..=16).contains(&k), 2, 0)?;
    ask(q >= 2 * k + 1, 3, 0)
}

/// W, the random words that a sample takes.
pub fn words_needed(n: u64, k: u64) -> u64 {
    2 * k * bit_words(n)
}

/// The output shares of a sample, by the numbers of all its bits, each with the next words. Answers the place after the last.
fn shares_of_sample(k: usize, q: u64, [x, y]: [&[u64]; 2], words: &[u64], start: u64, out: &mut [u64]) -> u64 {
    let (n, mut next) = (out.len(), start);
    let mut rows = vec![vec![0; n]; 2 * k];
    for (place, row) in rows.iter_mut().enumerate() {
        let (shares, bit) = if place < k { (x, place) } else { (y, place - k) };
        let bits: Vec<u64> = shares.iter().map(|s| s >> bit & 1).collect();
        next = convert_bit(n as u64, q, &bits, words, next, row).expect("a shared bit and its words");
    }
    for (i, share) in out.iter_mut().enumerate() {
        let [x_sum, y_sum] = [&rows[..k], &rows[k..]].map(|rows| rows.iter().map(|row| row[i]).sum::<u64>() % q);
        *share = minus(x_sum, y_sum, q);
    }
    next
}

/// The sampler, which makes one coefficient. The strings are the shares of x and the shares of y.
pub fn sample([n, k, q]: [u64; 3], strings: [&[u64]; 2], words: &[u64], start: u64, out: &mut [u64], work: &mut [u64]) -> Verdict<u64> {
    coefficients([n, k, q, 1], strings, words, start, out, work)
}

/// m coefficients, one after the other in all lists but the work area, with the words from the starting place on. Answers the place after the
/// last. From place 0 it is the polynomial call of document 02.
pub fn coefficients([n, k, q, m]: [u64; 4], strings: [&[u64]; 2], words: &[u64], start: u64, out: &mut [u64], work: &mut [u64]) -> Verdict<u64> {
    let [x, y] = strings;
    parameters(n, k, q)?;
    ask((1..=256).contains(&m), 23, 0)?;
    ask(x.len() as u64 == m * n, 4, 0)?;
    ask(y.len() as u64 == m * n, 5, 0)?;
    ask_all(x, 6, |s| !has_bits_at_or_above(s, k))?;
    ask_all(y, 7, |s| !has_bits_at_or_above(s, k))?;
    ask_words(words, start, m * words_needed(n, k), q)?;
    ask(out.len() as u64 >= m * n, 10, 0)?;
    ask(work.len() as u64 >= n, 11, 0)?;
    let mut next = start;
    for t in 0..m {
        let shares = (t * n) as usize..((t + 1) * n) as usize;
        let strings = strings.map(|list| &list[shares.clone()]);
        next = shares_of_sample(k as usize, q, strings, words, next, &mut out[shares]);
    }
    work[..n as usize].fill(0);
    Ok(next)
}

/// The shares add up to the weight of x less the weight of y, modulo q.
pub fn adds_up(q: u64, strings: [&[u64]; 2], shares: &[u64]) -> bool {
    let [x, y] = strings.map(|s| weight(s.iter().fold(0, |a, w| a ^ w)));
    (shares.iter().sum::<u64>() % q) as i64 == (x - y).rem_euclid(q as i64)
}

pub fn parameter_set(number: u64) -> Verdict<(u64, u64)> {
    match number {
        1 => Ok((2, 3329)),
        2 => Ok((3, 3329)),
        3 => Ok((8, 12289)),
        4 => Ok((16, 12289)),
        5 => Ok((5, 8192)),
        6 => Ok((4, 8192)),
        7 => Ok((3, 8192)),
        _ => Err((22, 0)),
    }
}
