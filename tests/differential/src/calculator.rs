//! The independent calculator: the three calls (01, "Where each thing is checked", with rules 20
//! and 21), what the program parkbill prints (01, "Park Alder, and its neighbours"), and making a
//! file of version 1 from a list of its numbers (02, R-1, with rule 22).

use crate::layout::Version;
use crate::park::Park;
use crate::rules::{accepted_park, listed_park, refuse_if};
use crate::steps::work_out;

pub use crate::rules::Refusal;
pub use crate::steps::Bill;

/// The line of names that parkbill prints first.
pub const NAMES: &str = "site,consumption,tg,settled,cut,generation,pc,pg,p2,p3,total,reason";

/// Checks a file.
pub fn check(file: &[u8]) -> Result<(), Refusal> {
    accepted_park(file).map(|_| ())
}

/// Bills one site; rule 20 comes last.
pub fn bill_site(file: &[u8], site: u64) -> Result<Bill, Refusal> {
    let park = accepted_park(file)?;
    refuse_if(site == 0 || site > park.sites.len() as u64, 20, 0)?;
    Ok(work_out(&park, site as usize).bill())
}

/// Bills the park into a list of this length; rule 21 comes last. The bills are those of sites 1
/// to s, and s is how many there are.
pub fn bill_park(file: &[u8], list_len: usize) -> Result<Vec<Bill>, Refusal> {
    let park = accepted_park(file)?;
    refuse_if(list_len < 11 * park.sites.len(), 21, 0)?;
    Ok(bills(&park))
}

/// The bills of all sites of an accepted park.
pub fn bills(park: &Park) -> Vec<Bill> {
    (1..=park.sites.len()).map(|site| work_out(park, site).bill()).collect()
}

/// Makes the file of a list of numbers in a buffer of this length; rule 22 comes last.
pub fn encode(numbers: &[u32], buffer_len: usize) -> Result<Vec<u8>, Refusal> {
    let file = listed_park(numbers)?.to_file();
    refuse_if(buffer_len < file.len(), 22, 0)?;
    Ok(file)
}

/// The one list that an accepted file of version 1 is made from; refusal 3 for one of version 2.
pub fn decode(file: &[u8]) -> Result<Vec<u32>, Refusal> {
    let park = accepted_park(file)?;
    refuse_if(park.version != Version::One, 3, 0)?;
    Ok(park.to_list())
}

/// The exact bytes that parkbill prints for a file.
pub fn printed(file: &[u8]) -> String {
    let bills = match bill_park(file, usize::MAX) {
        Ok(bills) => bills,
        Err(refusal) => return format!("refused,{},{}\n", refusal.number, refusal.place),
    };
    let mut text = format!("{NAMES}\n");
    for (index, bill) in bills.iter().enumerate() {
        text += &(index + 1).to_string();
        for number in bill {
            text += &format!(",{number}");
        }
        text += "\n";
    }
    text
}
