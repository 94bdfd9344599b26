//! Pictures, as a stock XML parser reads them: what holds for every one.

use super::{python, Tool};
use crate::group::Group;
use std::fmt::Arguments;

/// Goes through the pictures. Of each it prints `picture`, what every one must be, what is printed meanwhile of its
/// root and its elements, and then its texts.
const READ: &str = r#"
import re
import xml.etree.ElementTree as E
ns = '{http://www.w3.org/2000/svg}'
def pictures():
    for n in range(int(open('count').read())):
        name = f'{n}.svg'
        raw = open(name, encoding='utf-8').read()
        root = E.parse(name).getroot()
        print('picture', n)
        every = list(root.iter())
        print('root', root.tag == ns + 'svg', root.get('version'), all(e.tag.startswith(ns) for e in every))
        print('described', *(bool((root.findtext(ns + tag) or '').strip()) for tag in ('title', 'desc')))
        links = [value for e in every for key, value in e.attrib.items()
                 if key.split('}')[-1] in ('href', 'src') or 'url(' in value]
        outside = [link for link in links if not re.search(r'^#|url\(#', link)]
        scripts = [e.tag for e in every if e.tag == ns + 'script' or any(k.startswith('on') for k in e.attrib)]
        print('outside', len(outside), len(scripts), '<!' in re.sub(r'<!--.*?-->', '', raw, flags=re.S), '@import' in raw)
        values = ' '.join(value for e in every for value in e.attrib.values())
        print('numbers', *(bool(re.search(r, values)) for r in (r'\.\d{7}', r'(?i)\b(nan|inf)\b', r'\de[-+]?\d')))
        yield root, every
        for e in every:
            if e.tag == ns + 'text':
                print('text', ' '.join(''.join(e.itertext()).split()))
def inside(root, group, points):
    parts = re.findall(r'(translate|scale)\(([-\d.]+)[ ,]+([-\d.]+)\)', group.get('transform', ''))
    w, h = float(root.get('width')), float(root.get('height'))
    def at(x, y):
        for name, a, b in reversed(parts):
            x, y = (x + float(a), y + float(b)) if name == 'translate' else (x * float(a), y * float(b))
        return 0 <= x <= w and 0 <= y <= h
    return len(parts) > 0 and all(at(float(x), float(y)) for x, y in points)
"#;

/// What is printed of every picture.
const PARTS: [&str; 4] = [
    "root True 1.1 True",
    "described True True",
    "outside 0 0 False False",
    "numbers False False False",
];

/// What a script prints of each of so many pictures, the files `0.svg`, `1.svg` and so on of the tool's folder. The
/// script goes through `pictures()`.
pub fn read(g: &mut Group, tool: &Tool, count: usize, script: &str) -> Vec<String> {
    tool.put("count", count.to_string());
    let read = python::run(&format!("{READ}{script}"), tool.folder());
    let error = read.as_ref().err().cloned();
    g.equal(format_args!("read by Python"), error, None);
    let read = read.unwrap_or_default();
    let pictures: Vec<String> = read.split("picture ").skip(1).map(String::from).collect();
    g.equal(format_args!("pictures"), pictures.len(), count);
    for (number, printed) in pictures.iter().enumerate() {
        has(g, format_args!("picture {number}"), printed, &PARTS);
    }
    pictures
}

/// Of the lines that were printed of a picture, the first with the same first word must be each of these.
pub fn has(g: &mut Group, case: Arguments, printed: &str, parts: &[&str]) {
    for &part in parts {
        let start = part.split(' ').next();
        let found = printed.lines().find(|line| line.split(' ').next() == start);
        g.equal(format_args!("{case}: parts"), found, Some(part));
    }
}

/// What follows a word in each line that begins with it.
pub fn after<'a>(printed: &'a str, word: &str) -> Vec<&'a str> {
    let rest = |line: &'a str| line.strip_prefix(word)?.strip_prefix(' ');
    printed.lines().filter_map(rest).collect()
}
