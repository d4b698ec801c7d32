// Reads a document from the standard input, and parses it (`parse`), or parses and prints it (`print`), by toml++.
// As `tomled` does, it ends without freeing the document.
#include <iostream>
#include <sstream>
#include <string>
#include <string_view>
#include <toml++/toml.h>

int main(int count, char** words) {
  std::ios::sync_with_stdio(false);
  std::stringstream text;
  text << std::cin.rdbuf();
  const auto* document = new toml::table(toml::parse(text.str()));
  if (count == 2 && std::string_view(words[1]) == "print") std::cout << *document << std::flush;
}
