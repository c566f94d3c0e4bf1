//! Plan texts, whole and damaged.
use super::Random;

pub fn line_starts(text: &[u8]) -> Vec<usize> {
    std::iter::once(0).chain((0..text.len()).filter(|i| text[*i] == b'\n').map(|i| i + 1)).filter(|i| *i < text.len()).collect()
}

/// One byte or one line of a text is damaged.
pub fn damaged(r: &mut Random, text: &mut Vec<u8>) {
    let i = r.below(text.len());
    match r.below(7) {
        0 => drop(text.remove(i)),
        1 => text[i] = r.choice(b"0123456789=@\na-zAZ[ `{/:\0\xff"),
        2 => text.insert(i, r.choice(b"0123456789=@\na-zA")),
        3 => text.truncate(i),
        4 => text.extend_from_slice(r.choice(&[&b"\n"[..], b"end=plan\n", b"x", b"go=1@1\n", b"go=1@1@1\n"])),
        _ => damaged_line(r, text),
    }
}

fn damaged_line(r: &mut Random, text: &mut Vec<u8>) {
    let starts = line_starts(text);
    let start = r.choice(&starts);
    let end = text[start..].iter().position(|b| *b == b'\n').map_or(text.len(), |n| start + n + 1);
    let line = text[start..end].to_vec();
    let key = line.iter().position(|b| *b == b'=').map_or(&line[..0], |n| &line[..n + 1]);
    let mut new = key.to_vec();
    match key {
        // a number less or more than the line has, or another leg
        b"go=" if r.one_in(2) => {
            let numbers: Vec<&[u8]> = line[key.len()..].trim_ascii_end().split(|b| *b == b'@').collect();
            let most = r.below(numbers.len() + 1);
            let leg = r.choice(&[&b"0"[..], b"1", b"2", b"59", b"60", b"61", b"256", b"01", b"", b"-1", b"9999999"]);
            let kept = numbers[..most].iter().chain([&leg]).copied().collect::<Vec<_>>();
            new.extend(kept.join(&b'@'));
        }
        b"go=" => new.extend_from_slice(r.choice(&[
            &b"65536@1"[..],
            b"65535@1000000",
            b"1@1000001",
            b"1@0",
            b"@1",
            b"1@2@3",
            b"5@7@60",
            b"5@7@61",
            b"65536@7@0",
            b"65536@7@01",
            b"65536@1000001@61",
            b"1@0@0",
            b"1@2@3@4",
            b"01@2",
            b"7@9999999",
            b"12345678@1",
            b"5@7",
            b"1@5",
        ])),
        b"name=" => new.extend_from_slice(r.choice(&[
            &b""[..],
            b"abcdefghijklmnopqrstuvwxy",
            b"abcdefghijklmnopqrstuvwx",
            b"Survey-Quad-East-0",
            b"a_b",
            b"survey-quad-east-1",
            b"-",
        ])),
        _ => new.extend_from_slice(r.choice(&[
            &b"0"[..],
            b"1",
            b"2",
            b"3",
            b"32",
            b"33",
            b"64",
            b"65",
            b"1024",
            b"1025",
            b"2046",
            b"2047",
            b"2048",
            b"2049",
            b"2000",
            b"+1",
            b"01",
            b"9999999",
            b"12345678",
            b"",
        ])),
    }
    new.push(b'\n');
    match r.below(6) {
        0 => drop(text.drain(start..end)),
        1 => drop(text.splice(start..start, line)),
        _ => drop(text.splice(start..end, new)),
    }
}
