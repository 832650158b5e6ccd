//! The second path's calls, and what it prints.

use std::io;

use crate::mistakes::Mistake;
use crate::mock::Mock;
use crate::product::{Product, Reply, Way};
use crate::steps::Bill;

/// Mistakes that one call or the program makes alone, each with the same one of all of them.
type Alone = [(Mistake, Mistake)];

const OF_SITE: &Alone = &[
    (Mistake::FormerActiveOfSite, Mistake::FormerActive),
    (Mistake::FormerDueOfSite, Mistake::FormerDue),
    (Mistake::MarkIgnoredOfSite, Mistake::MarkIgnored),
    (Mistake::EntryOneMoreOfSite, Mistake::EntryOneMore),
];
const IN_PARK: &Alone = &[
    (Mistake::FormerActiveInPark, Mistake::FormerActive),
    (Mistake::FormerDueInPark, Mistake::FormerDue),
    (Mistake::MarkIgnoredInPark, Mistake::MarkIgnored),
    (Mistake::EntryOneMoreInPark, Mistake::EntryOneMore),
];
const PRINTED: &Alone = &[
    (Mistake::FormerActivePrinted, Mistake::FormerActive),
    (Mistake::FormerDuePrinted, Mistake::FormerDue),
    (Mistake::MarkIgnoredPrinted, Mistake::MarkIgnored),
];

impl Mock {
    /// The bills, or those of a mistake that is made here alone.
    fn bills_here(&self, alone: &Alone, way: Way, file: &[u8]) -> Vec<Bill> {
        match alone.iter().find(|(here, _)| self.makes(*here)) {
            Some((_, everywhere)) => Mock::new(Some(*everywhere)).bills(way, file),
            None => self.bills(way, file),
        }
    }

    /// The refusal of a file by a call that bills it this way.
    fn refusal_of_bill(&self, way: Way, file: &[u8]) -> (u64, u64) {
        match self.former_if(Mistake::FormerEndsBilled, self.refusal(file)) {
            (0, _) if way == Way::Table && self.makes(Mistake::AboveTableRefused) => {
                self.tangent_refusal(file, 2_000)
            }
            refusal => refusal,
        }
    }
}

impl Product for Mock {
    fn check(&self, file: &[u8]) -> Reply {
        self.reply(self.refusal(file))
    }

    fn bill_site(&self, way: Way, file: &[u8], bill: &mut Bill, site: u64) -> Reply {
        let site = if self.makes(Mistake::SiteTakenAsByte) { site & 255 } else { site };
        let mut refusal = self.refusal_of_bill(way, file);
        if refusal.0 == 0 && (site == 0 || site > file[6] as u64) {
            refusal = (20, 0);
        }
        if refusal.0 == 0 {
            let other = way == Way::Table && self.makes(Mistake::OtherSiteByTable);
            let index = if other { file[6] as u64 - site } else { site - 1 };
            let right = self.bills_here(OF_SITE, way, file)[index as usize];
            *bill = self.former_tangent_if(Mistake::FormerTangentOfSite, right);
        } else if self.makes(Mistake::BillWrittenOnRefusal) {
            *bill = [0; 11];
        }
        self.reply(refusal)
    }

    fn bill_park(&self, way: Way, file: &[u8], list: &mut [u64]) -> (Reply, u64) {
        let mut refusal = self.refusal_of_bill(way, file);
        let least = 11 * file.get(6).map_or(0, |sites| *sites as usize);
        let longer = list.len() > least && self.makes(Mistake::LongerListRefused);
        let short = list.len() < least && !self.makes(Mistake::ShortListAccepted);
        if refusal.0 == 0 && (short || longer) {
            refusal = (21, 0);
        }
        if refusal.0 != 0 {
            if self.makes(Mistake::ListWrittenOnRefusal) && !list.is_empty() {
                list[0] = 0;
            }
            return (self.reply(refusal), 0);
        }
        let in_park = |bill| self.former_tangent_if(Mistake::FormerTangentInPark, bill);
        let bills = self.bills_here(IN_PARK, way, file);
        let numbers = bills.into_iter().flat_map(in_park);
        for (place, number) in list.iter_mut().zip(numbers) {
            *place = number;
        }
        if self.makes(Mistake::WritesPastTheBills) && list.len() > least {
            list[least] = 0;
        }
        let by_length = self.makes(Mistake::SitesFromListLength);
        (self.reply(refusal), if by_length { list.len() as u64 / 11 } else { file[6] as u64 })
    }

    fn encode(&self, numbers: &[u32], file: &mut [u8]) -> (Reply, u64) {
        self.make(numbers, file)
    }

    fn printed(&self, file: &[u8]) -> io::Result<Vec<u8>> {
        let file = self.bytes_read(file);
        let mut text = match self.former_if(Mistake::FormerEndsPrinted, self.refusal(file)) {
            (0, _) => {
                let bills = self.bills_here(PRINTED, Way::Formula, file);
                table(bills.into_iter().map(|bill| self.printed_bill(bill)))
            }
            (number, place) => format!("refused,{number},{place}\n"),
        };
        if self.makes(Mistake::LastNewlineMissing) {
            text.pop();
        }
        Ok(text.into_bytes())
    }
}

fn table(bills: impl Iterator<Item = Bill>) -> String {
    let names = "site,consumption,tg,settled,cut,generation,pc,pg,p2,p3,total,reason\n";
    let row = |(site, bill): (usize, Bill)| {
        let numbers: Vec<String> = bill.iter().map(u64::to_string).collect();
        format!("{},{}\n", site + 1, numbers.join(","))
    };
    names.to_string() + &bills.enumerate().map(row).collect::<String>()
}
