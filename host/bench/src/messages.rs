//! Messages of tracers, of about a given size.

/// The lines of the seven names, as a tracer may send them.
const SEVEN: [&str; 7] = [
    "JOB=40711",
    "DO=B",
    "DBL=18.25",
    "HBOX=52.40;52.45",
    "VBOX=30.10;30.05",
    "FED=55.50;55.75",
    "IPD=31.5;32",
];

/// Lines of other names, with texts, numbers and empty values.
const OTHERS: [&str; 24] = [
    "REQ=JOB",
    "STATUS=0",
    "DEV=TRC",
    "VEN=TUMKWASA",
    "MODEL=EDGE TRACER 2;REVISION 7",
    "SN=00381942",
    "FRAM=ROUND METAL 52-18",
    "FMFR=OPTICAL WORKSHOP",
    "FTYP=2",
    "ETYP=1",
    "CIRC=148.75;148.80",
    "ZTILT=5.5;5.5",
    "FCRV=4.25;4.30",
    "BEVP=7",
    "BEVM=50;50",
    "LNAM=PROGRESSIVE 1.6;PROGRESSIVE 1.6",
    "LIND=1.600;1.600",
    "SPH=-1.25;-1.50",
    "CYL=-0.50;",
    "AX=90;",
    "ADD=2.00;2.00",
    "OCHT=2.5;2.5",
    "PANTO=8",
    "CLIENT=A. N. OTHER",
];

/// The seven lines, and others behind each in turn for as long as n bytes have room for the next.
fn among(seven: &[&str], others: &[&str], n: usize) -> Vec<u8> {
    let size = |line: &str| line.len() + 2;
    let mut left = n - seven.iter().map(|line| size(line)).sum::<usize>();
    let mut behind: Vec<Vec<&str>> = seven.iter().map(|line| vec![*line]).collect();
    for (at, line) in others.iter().cycle().enumerate() {
        if size(line) > left {
            break;
        }
        left -= size(line);
        behind[at % seven.len()].push(line);
    }
    behind.concat().iter().flat_map(|line| [line.as_bytes(), b"\r\n"].concat()).collect()
}

/// The seven names among many other lines.
pub fn typical(n: usize) -> Vec<u8> {
    among(&SEVEN, &OTHERS, n)
}

/// Lines of four to seven bytes, so that there is a line to be read for every few bytes.
pub fn short(n: usize) -> Vec<u8> {
    let seven = ["JOB=1", "DO=B", "DBL=1", "HBOX=2", "VBOX=3", "FED=4", "IPD=5"];
    among(&seven, &["A=1", "B=", "C2=x", "D=;"], n)
}
