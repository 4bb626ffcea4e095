// Accounts whose faults are kept apart by their types, and a bank that tells who may do what.
package main

import "errors"

var errClosed = errors.New("account is closed")

type insufficient struct{ balance, wanted int }

func (i insufficient) Error() string { return "insufficient funds" }

func (i insufficient) lacking() int { return i.wanted - i.balance }

type account struct {
	owner   string
	balance int
	closed  bool
	history []int
}

func (a *account) withdraw(amount int) error {
	if a.closed {
		return errClosed
	}
	if a.balance < amount {
		return insufficient{a.balance, amount}
	}
	a.balance -= amount
	a.history = append(a.history, -amount)
	return nil
}

func (a *account) deposit(amount int) error {
	if a.closed {
		return errClosed
	}
	a.balance += amount
	a.history = append(a.history, amount)
	return nil
}

type bank struct{ accounts map[string]*account }

func (b *bank) open(owner string, balance int) *account {
	if b.accounts == nil {
		b.accounts = make(map[string]*account)
	}
	a := &account{owner: owner, balance: balance}
	b.accounts[owner] = a
	return a
}

func (b *bank) transfer(from, to string, amount int) (err error) {
	source, target := b.accounts[from], b.accounts[to]
	if source == nil || target == nil {
		return errors.New("no such account")
	}
	if err = source.withdraw(amount); err != nil {
		return
	}
	defer func() {
		if err != nil {
			source.deposit(amount)
		}
	}()
	return target.deposit(amount)
}

func main() {
	var b bank
	b.open("ann", 100)
	b.open("bob", 20)
	b.open("cy", 0).closed = true
	report := func(err error) {
		switch e := err.(type) {
		case nil:
			print("done")
		case insufficient:
			print(e.Error(), ", ", e.lacking(), " more")
		default:
			print(e.Error())
			if e == errClosed {
				print("!")
			}
		}
		println(": ann", b.accounts["ann"].balance, "bob", b.accounts["bob"].balance)
	}
	report(b.transfer("ann", "bob", 70))
	report(b.transfer("ann", "bob", 70))
	report(b.transfer("bob", "cy", 10))
	report(b.transfer("bob", "eve", 10))
	for _, change := range b.accounts["bob"].history {
		print(change, " ")
	}
	println()
}
