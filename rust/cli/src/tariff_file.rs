//! A tariff as a file: twelve lines `name = number`, in any order; `#` begins a remark.
use zolvortug::Tariff;

const NAMES: [&str; 12] = [
    "create",
    "read",
    "status",
    "destroy",
    "replace",
    "setexpiry",
    "getids",
    "getcount",
    "scavenge",
    "profile",
    "error",
    "rate",
];

pub fn parse(text: &str) -> Result<Tariff, String> {
    let mut given: [Option<u32>; 12] = [None; 12];
    for (i, line) in text.lines().enumerate() {
        let line = line.split('#').next().unwrap_or_default().trim();
        if !line.is_empty() {
            price(line, &mut given).map_err(|what| format!("line {}: {what}", i + 1))?;
        }
    }
    if let Some(i) = given.iter().position(|n| n.is_none()) {
        return Err(format!("'{}' is missing; a tariff has {}", NAMES[i], NAMES.join(", ")));
    }
    let [create, read, status, destroy, replace, setexpiry, getids, getcount, scavenge, profile, error, rate] =
        given.map(|n| n.unwrap_or_default());
    Ok(Tariff {
        create,
        read,
        status,
        destroy,
        replace,
        setexpiry,
        getids,
        getcount,
        scavenge,
        profile,
        error,
        rate: u16::try_from(rate).map_err(|_| "the rate is at most 65535".to_string())?,
    })
}

fn price(line: &str, given: &mut [Option<u32>; 12]) -> Result<(), String> {
    let (name, number) = line.split_once('=').ok_or("write name = number")?;
    let (name, number) = (name.trim(), number.trim());
    let i = NAMES
        .iter()
        .position(|n| *n == name)
        .ok_or(format!("there is no price '{name}'"))?;
    let number = number
        .parse()
        .map_err(|_| format!("'{number}' is no number from 0 to 4294967295"))?;
    match given[i].replace(number) {
        None => Ok(()),
        Some(_) => Err(format!("'{name}' stands twice")),
    }
}

#[cfg(test)]
mod tests {
    use super::*;

    fn twelve() -> Vec<String> {
        NAMES
            .iter()
            .enumerate()
            .map(|(i, name)| format!("{name} = {}", 100 + i))
            .collect()
    }

    #[test]
    fn every_name_has_its_field() {
        let t = parse(&twelve().join("\n")).unwrap();
        let in_order = [
            t.create,
            t.read,
            t.status,
            t.destroy,
            t.replace,
            t.setexpiry,
            t.getids,
            t.getcount,
            t.scavenge,
            t.profile,
            t.error,
            u32::from(t.rate),
        ];
        assert_eq!(in_order, [100, 101, 102, 103, 104, 105, 106, 107, 108, 109, 110, 111]);
    }

    #[test]
    fn what_is_wrong_is_said() {
        let cases: [(usize, &str, &str); 7] = [
            (0, "", "'create' is missing"),
            (11, "# rate = 5", "'rate' is missing"),
            (3, "destroyed = 5", "line 4: there is no price 'destroyed'"),
            (3, "destroy 5", "line 4: write name = number"),
            (3, "create = 5", "line 4: 'create' stands twice"),
            (3, "destroy = -5", "line 4: '-5' is no number"),
            (11, "rate = 65536", "the rate is at most 65535"),
        ];
        for (i, line, what) in cases {
            let mut lines = twelve();
            lines[i] = line.into();
            let said = parse(&lines.join("\n")).unwrap_err();
            assert!(said.starts_with(what), "{line}: {said}");
        }
    }
}
