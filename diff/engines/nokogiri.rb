# Decides by Nokogiri and libxml2's XPath, on Nokogiri's tree of an HTML document (ruby-nokogiri). See __init__.py.

require "json"
require "nokogiri"

def tree_of(elements)
  document = Nokogiri::HTML4::Document.new
  numbers = {}
  made = []
  elements.each_with_index do |(parent, _, name, attributes), number|
    element = Nokogiri::XML::Element.new(name, document)
    attributes.each { |prefix, local, value| element[prefix ? "#{prefix}:#{local}" : local] = value }
    parent.nil? ? document.root = element : made[parent].add_child(element)
    numbers[element.pointer_id] = number
    made << element
  end
  [document, numbers, made]
end

def answer(document, numbers, selector)
  document.css(selector).map { |element| numbers[element.pointer_id] }.sort
rescue StandardError => refusal
  "#{refusal.class}: #{refusal.message}"
end

$stdin.each_line do |line|
  asked = JSON.parse(line, max_nesting: false)
  document, numbers, _made = tree_of(asked["elements"])
  puts JSON.generate(asked["selectors"].map { |selector| answer(document, numbers, selector) })
  $stdout.flush
end
