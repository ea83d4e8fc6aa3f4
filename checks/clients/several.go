// several URL LARGE: requests of Go's client, one after another, and how many connections it made.
package main

import (
	"fmt"
	"io"
	"net/http"
	"net/http/httptrace"
	"os"
	"strconv"
	"strings"
)

func main() {
	large, _ := strconv.Atoi(os.Args[2])
	made := 0
	trace := &httptrace.ClientTrace{GotConn: func(got httptrace.GotConnInfo) {
		if !got.Reused {
			made++
		}
	}}
	requests := []struct{ method, body string }{
		{"GET", ""}, {"GET", ""}, {"POST", "hello"}, {"POST", strings.Repeat("x", large)}, {"GET", ""},
	}
	for _, asked := range requests {
		request, _ := http.NewRequest(asked.method, os.Args[1], strings.NewReader(asked.body))
		answer, err := http.DefaultClient.Do(request.WithContext(httptrace.WithClientTrace(request.Context(), trace)))
		if err != nil {
			fmt.Print("fails: ", err, " ")
			break
		}
		io.Copy(io.Discard, answer.Body)
		answer.Body.Close()
		fmt.Print(answer.StatusCode, " ")
	}
	fmt.Println("on", made)
}
