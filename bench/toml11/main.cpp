// Reads a document from the standard input, and parses it (`parse`), or parses and prints it (`print`), by toml11.
// As `tomled` does, it ends without freeing the document.
#include <iostream>
#include <sstream>
#include <string_view>
#include <toml.hpp>

int main(int count, char** words) {
  std::ios::sync_with_stdio(false);
  // It asks its stream for its size, which a pipe does not have.
  std::stringstream text;
  text << std::cin.rdbuf();
  const auto* document = new toml::value(toml::parse(text));
  if (count == 2 && std::string_view(words[1]) == "print") std::cout << *document << std::flush;
}
