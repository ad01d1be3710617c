// Sets an item of a sequence to a text by yaml.v3's nodes, as yq version 4 does, and prints the file. usage: edit FILE TEXT KEY .. ITEM
package main

import (
	"os"
	"strconv"

	"gopkg.in/yaml.v3"
)

// value gives the value of a key of a mapping.
func value(node *yaml.Node, key string) *yaml.Node {
	for i := 0; i+1 < len(node.Content); i += 2 {
		if node.Content[i].Value == key {
			return node.Content[i+1]
		}
	}
	os.Exit(1)
	return nil
}

func main() {
	file, text, path := os.Args[1], os.Args[2], os.Args[3:]
	bytes, err := os.ReadFile(file)
	if err != nil {
		os.Exit(1)
	}
	var document yaml.Node
	if yaml.Unmarshal(bytes, &document) != nil {
		os.Exit(1)
	}
	node, last := document.Content[0], len(path)-1
	for _, key := range path[:last] {
		node = value(node, key)
	}
	item, err := strconv.Atoi(path[last])
	if err != nil {
		os.Exit(1)
	}
	node.Content[item].Value = text
	encoder := yaml.NewEncoder(os.Stdout)
	encoder.SetIndent(2)
	if encoder.Encode(&document) != nil {
		os.Exit(1)
	}
}
