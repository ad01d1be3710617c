// Reads a file by yaml.v3 as nodes. usage: yamlv3 FILE
package main

import (
	"os"

	"gopkg.in/yaml.v3"
)

func main() {
	text, err := os.ReadFile(os.Args[1])
	if err == nil {
		var node yaml.Node
		err = yaml.Unmarshal(text, &node)
	}
	if err != nil {
		os.Exit(1)
	}
}
