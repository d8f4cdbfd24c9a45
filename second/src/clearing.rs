//! K5: who owes whom. A session file runs in a session that keeps the square; behind the session's
//! own lines, also after a fault, come
//!
//!     owes BUYER SELLER QUANTITY
//!     total QUANTITY
//!
//! an `owes` for each cell that is not 0, by rows of buying members and then by columns of selling
//! members, and one `total`. The members stand in the order of their first accepted order or quote.
//! No cell is kept: each is worked out from the list of all trades so far. The total is the sum of
//! the quantities of all auctions of outcome 1.

use super::*;

/// K5: a square of 32 by 32.
const MEMBERS: usize = 32;

pub fn clearing(file: &[u8]) -> String {
    let mut session = keeping_the_square();
    let lines = run_in(&mut session, file);
    lines + &session.square.map_or(String::new(), |square| square.lines())
}

/// A fresh session that keeps the square.
pub fn keeping_the_square() -> Session {
    Session { square: Some(Square::default()), ..Session::fresh() }
}

#[derive(Default)]
pub struct Square {
    /// In the order of their first accepted order or quote.
    pub members: Vec<u64>,
    /// All trades so far: buying member, selling member, quantity.
    trades: Vec<[u64; 3]>,
    /// The quantities of all auctions of outcome 1.
    pub total: u64,
}

impl Square {
    /// Refusal 16: a thirty-third member is one that is not among the 32 entered.
    pub fn shuts_out(&self, member: u64) -> bool {
        self.members.len() == MEMBERS && !self.members.contains(&member)
    }

    /// A member is entered at its first accepted entry and stays.
    pub fn enter(&mut self, member: u64) {
        if !self.members.contains(&member) {
            self.members.push(member);
        }
    }

    /// The trades of an auction of outcome 1, with the members of the orders in the book before it.
    pub fn add(&mut self, book: &[Option<Order>], answer: &Answer) {
        let member = |number: u64| {
            let order = book.iter().flatten().find(|order| order.number == number);
            order.expect("a trade is of resting orders").member
        };
        for trade in &answer.trades {
            self.trades.push([member(trade.buy), member(trade.sell), trade.quantity]);
        }
        self.total += answer.quantity;
    }

    /// What the buyer bought from the seller since start; they may be one member.
    pub fn cell(&self, buyer: u64, seller: u64) -> u64 {
        let counted = self.trades.iter().filter(|trade| trade[..2] == [buyer, seller]);
        counted.map(|[_, _, quantity]| quantity).sum()
    }

    fn lines(&self) -> String {
        let mut lines = String::new();
        for &buyer in &self.members {
            for &seller in &self.members {
                let quantity = self.cell(buyer, seller);
                if quantity != 0 {
                    lines += &format!("owes {buyer} {seller} {quantity}\n");
                }
            }
        }
        lines + &format!("total {}\n", self.total)
    }
}
