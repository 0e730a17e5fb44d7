package httpd

import (
	"context"
	"errors"
	"io"
	"net/http"
	"net/url"
	"strings"
	"time"

	"gitpoold/access"
	"gitpoold/account"
	"gitpoold/pages"
)

// longestForm is how many bytes a form of an account may have: a file of keys, with escapes.
const longestForm = 4 * account.LongestInput

// account answers the page on which a user looks after the own account, and what is sent from its forms.
func (e *exchange) account() {
	v := pages.Visit{Place: pages.Place{Kind: pages.Tenants}, Now: time.Now(), Network: access.Network(e.record.Address)}
	if e.r.Method != http.MethodGet && e.r.Method != http.MethodHead && e.r.Method != http.MethodPost {
		e.w.Header().Set("Allow", "GET, HEAD, POST")
		e.fail(http.StatusMethodNotAllowed, "this page is asked by GET, and its forms are sent by POST")
		return
	}
	user, err := e.login()
	switch {
	case errors.Is(err, access.ErrBusy):
		e.finish()
		e.send(v.Refusal(http.StatusServiceUnavailable, "The server is busy", "Please try again in a moment."))
		return
	case err != nil || user == "":
		e.finish()
		e.askSignIn(v, "This needs a user and a password.")
		return
	}
	v.User = user
	leave, err := e.Limits.Enter(user, e.record.Address)
	if err != nil {
		e.finish()
		e.w.Header().Set("Retry-After", "1")
		e.send(v.Refusal(http.StatusTooManyRequests, "Too many requests at once", "Please try again in a moment."))
		return
	}
	defer leave()
	e.visitAccount(v, account.User{Gateway: e.Gateway, Login: user, Address: e.record.Address})
}

// visitAccount shows the account, after what a form asks for.
func (e *exchange) visitAccount(v pages.Visit, user account.User) {
	if err := e.Access.Blocked(v.User, "", access.Read); err != nil {
		e.finish()
		e.send(v.Refusal(http.StatusForbidden, "Blocked", err.Error()))
		return
	}
	shown := pages.Account{Name: user.Login, IsToken: access.IsToken(user.Login)}
	if e.r.Method == http.MethodPost {
		form, why := e.form(user.Login)
		e.finish()
		if why != "" {
			e.send(v.Refusal(http.StatusForbidden, "This form is not taken", why))
			return
		}
		e.obey(user, form, &shown)
	} else {
		e.finish()
	}
	if err := fillAccount(&shown, user); err != nil {
		answer := v.Refusal(http.StatusInternalServerError, "Something went wrong", "The server's log says what.")
		answer.Err = err
		e.send(answer)
		return
	}
	shown.Form = e.forms.token(user.Login, time.Now())
	e.send(v.AccountPage(shown))
}

// fillAccount takes what the user has and may do.
func fillAccount(shown *pages.Account, user account.User) error {
	lines, err := user.Show()
	for _, line := range lines {
		word, rest, _ := strings.Cut(line, " ")
		words := strings.Fields(rest)
		switch {
		case word == "grant":
			shown.Grants = append(shown.Grants, rest)
		case word == "key" && len(words) == 2:
			shown.Keys = append(shown.Keys, pages.Row{Name: words[1], Text: rest})
		case word == "token" && len(words) > 0:
			shown.Tokens = append(shown.Tokens, pages.Row{Name: words[0], Text: rest})
		}
	}
	return err
}

// form gives what a form sends, or says why it is not taken: another site may let a browser send one.
func (e *exchange) form(login string) (form url.Values, why string) {
	const reload = "It does not come from this page, or from one that was shown too long ago. Open the page anew."
	if !isOwnForm(e.r) {
		return nil, reload
	}
	if kind, _, _ := strings.Cut(e.r.Header.Get("Content-Type"), ";"); kind != "application/x-www-form-urlencoded" {
		return nil, "Its form is not that of this page."
	}
	text, err := io.ReadAll(io.LimitReader(e.Limits.Watched(e.r.Body, func() { stop(e.r) }), longestForm+1))
	if err == nil && len(text) <= longestForm {
		form, err = url.ParseQuery(string(text))
	}
	if err != nil || len(text) > longestForm {
		return nil, "It is cut off, or longer than this page sends."
	}
	if !e.forms.isToken(form.Get("form"), login, time.Now()) {
		return nil, reload
	}
	return form, ""
}

// isOwnForm tells whether a browser says that what it sends comes from this server's own page. One that says nothing of it is older than both headers;
// the token of the form tells then.
func isOwnForm(r *http.Request) bool {
	if from := r.Header.Get("Sec-Fetch-Site"); from != "" && from != "same-origin" {
		return false
	}
	origin, has := r.Header["Origin"]
	if !has {
		return true
	}
	from, err := url.Parse(strings.Join(origin, " "))
	return err == nil && from.Host != "" && strings.EqualFold(from.Host, r.Host)
}

// obey does what a form asks for, and says what has become of it.
func (e *exchange) obey(user account.User, form url.Values, shown *pages.Account) {
	ctx := e.r.Context()
	var err error
	switch form.Get("do") {
	case "key-add":
		_, err = user.AddKeys(ctx, []byte(form.Get("key")))
		shown.Done = "The key is added."
	case "key-remove":
		err = user.RemoveKey(ctx, form.Get("key"))
		shown.Done = "The key is removed."
	case "token-create":
		shown.Token, shown.Secret, err = user.NewToken(ctx, form.Get("pattern"), form.Get("right"), form.Get("end"))
		shown.Done = "The token is made."
	case "token-remove":
		err = user.RemoveToken(ctx, form.Get("token"))
		shown.Done = "The token is removed."
	case "password":
		err = e.changePassword(ctx, user, form)
		shown.Done = "The password is changed. Sign in by the new one."
	default:
		err = errors.New("there is no such form")
	}
	if e.record.Err = err; err != nil {
		shown.Done, shown.Failed = "", err.Error()
	}
}

// changePassword asks for the password before, so that whoever finds a browser open does not change it.
func (e *exchange) changePassword(ctx context.Context, user account.User, form url.Values) error {
	if form.Get("new") != form.Get("again") {
		return errors.New("the new password is not the same twice")
	}
	if access.IsToken(user.Login) {
		return account.ErrToken
	}
	if err := e.Access.Password(ctx, user.Login, form.Get("old"), e.record.Address); err != nil {
		return err
	}
	return user.SetPassword(ctx, form.Get("new"))
}
