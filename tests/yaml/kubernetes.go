// What Kubernetes' reader of YAML, sigs.k8s.io/yaml, reads of texts.
//
// Standard input has texts, each behind a line with its length in bytes. For each, one line of JSON
// is printed: the value of its first document, or why it is refused.
package main

import (
	"bufio"
	"encoding/json"
	"fmt"
	"io"
	"os"
	"strconv"
	"strings"

	"sigs.k8s.io/yaml"
)

type answer struct {
	Value json.RawMessage `json:"value,omitempty"`
	Fault string          `json:"fault,omitempty"`
}

func read(text []byte) (found answer) {
	defer func() {
		if trouble := recover(); trouble != nil {
			found = answer{Fault: fmt.Sprint(trouble)}
		}
	}()
	value, err := yaml.YAMLToJSONStrict(text)
	if err != nil {
		return answer{Fault: err.Error()}
	}
	return answer{Value: value}
}

func main() {
	in := bufio.NewReader(os.Stdin)
	out := bufio.NewWriter(os.Stdout)
	defer out.Flush()
	lines := json.NewEncoder(out)
	for {
		line, err := in.ReadString('\n')
		if err != nil {
			return
		}
		size, err := strconv.Atoi(strings.TrimSpace(line))
		if err != nil {
			panic(err)
		}
		text := make([]byte, size)
		if _, err := io.ReadFull(in, text); err != nil {
			return
		}
		if err := lines.Encode(read(text)); err != nil {
			panic(err)
		}
	}
}
