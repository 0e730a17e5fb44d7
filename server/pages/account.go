package pages

import "net/http"

// AccountPath is the path of the page on which users look after their own accounts.
const AccountPath = separator + "account"

// Account is what that page shows.
type Account struct {
	// Name is the login, and IsToken whether it is a token's, which is shown and may change nothing.
	Name    string
	IsToken bool
	Grants  []string
	Keys    []Row
	Tokens  []Row
	// Form goes with each form, and comes back with what the user sends.
	Form string
	// Done or Failed says what has become of what the user sent; Token and Secret are those of a token that was made.
	Done, Failed, Token, Secret string
}

// Row is a key or a token: its name, by which it is removed, and what is shown of it.
type Row struct{ Name, Text string }

// URL is where forms are sent.
func (Account) URL() string { return AccountPath }

// AccountPage makes the page. It is never kept by a browser.
func (v Visit) AccountPage(a Account) Answer {
	v.Place = Place{Kind: Tenants}
	answer, err := v.page("account", frame{Title: "Account"}, a)
	if err != nil {
		answer = v.Refusal(http.StatusInternalServerError, "Something went wrong", "The server's log says what.")
		answer.Err = err
		return answer
	}
	answer.Tag, answer.HasForms = "", true
	if a.Failed != "" {
		answer.Status = http.StatusUnprocessableEntity
	}
	return answer
}
