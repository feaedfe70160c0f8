// Times Casbin's Go library on the policies of `gate_bench policy`: so many roles in a tree, so many grants of reading a
// cell each to the roles in turn, and a user at the top of the tree.
//
// Debian's packages are in a GOPATH of their own, so this file needs one next to it:
//
//	mkdir -p gopath/src/bench && cp casbin.go gopath/src/bench/main.go && cd gopath/src/bench
//	printf 'module bench\n\nrequire github.com/casbin/casbin/v2 v2.60.0\n' > go.mod
//	GO111MODULE=off GOPATH=$PWD/../..:/usr/share/gocode go run .
package main

import (
	"fmt"
	"os"
	"time"

	"github.com/casbin/casbin/v2"
	"github.com/casbin/casbin/v2/model"
)

const rules = `
[request_definition]
r = sub, obj, act
[policy_definition]
p = sub, obj, act
[role_definition]
g = _, _
[policy_effect]
e = some(where (p.eft == allow))
[matchers]
m = r.act == p.act && r.obj == p.obj && g(r.sub, p.sub)
`

// At least so long is each call timed.
const atLeast = 2 * time.Second

func check(err error) {
	if err != nil {
		fmt.Fprintln(os.Stderr, err)
		os.Exit(1)
	}
}

func role(number int) string { return fmt.Sprintf("r%d", number) }

func cell(number int) string { return fmt.Sprintf("c%d", number) }

// Fills a policy; the officer's role counts as one of the roles.
func fill(roles, grants int) *casbin.Enforcer {
	m, err := model.NewModelFromString(rules)
	check(err)
	e, err := casbin.NewEnforcer(m)
	check(err)
	for junior := 1; junior < roles-1; junior++ {
		_, err := e.AddGroupingPolicy(role((junior-1)/2), role(junior))
		check(err)
	}
	_, err = e.AddGroupingPolicy("ann", role(0))
	check(err)
	for number := 0; number < grants; number++ {
		_, err := e.AddPolicy(role(number%(roles-1)), cell(number), "read")
		check(err)
	}
	return e
}

// Calls a second.
func rate(call func(turn int)) float64 {
	start := time.Now()
	turn := 0
	for time.Since(start) < atLeast {
		call(turn)
		turn++
	}
	return float64(turn) / time.Since(start).Seconds()
}

func show(roles, grants int) {
	e := fill(roles, grants)
	permitted, asked := 0, 0
	enforce := rate(func(turn int) {
		ok, err := e.Enforce("ann", cell(turn%(2*grants)), "read")
		check(err)
		asked++
		if ok {
			permitted++
		}
	})
	whoami := rate(func(turn int) {
		_, err := e.GetImplicitRolesForUser("ann")
		check(err)
	})
	change := rate(func(turn int) {
		_, err := e.RemovePolicy(role(0), cell(0), "read")
		check(err)
		_, err = e.AddPolicy(role(0), cell(0), "read")
		check(err)
	})
	fmt.Printf("%d roles, %d grants: enforce %.0f a second (%d of %d permitted), implicit roles %.0f, remove and add %.0f\n",
		roles, grants, enforce, permitted, asked, whoami, change)
}

func main() {
	for _, size := range [][2]int{{10, 10}, {10, 4094}, {100, 100}, {100, 4094}, {512, 512}, {512, 4094}} {
		show(size[0], size[1])
	}
}
