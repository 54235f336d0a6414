-- Makes a page a page of the site, for tools/html. The first heading becomes its title, and links to pages lead to what
-- these become. Other files that it links are written to the file that LINKED in the environment names, a line each.
local linked = assert(io.open(os.getenv('LINKED'), 'w'))

-- Whether a target is a file here.
local function is_file(target)
  return target ~= '' and not target:match('^%a[%w+.-]*:') and not target:match('^#')
end

function Link(link)
  local path, anchor = link.target:match('^([^#]*)(.*)$')
  if is_file(link.target) and path:match('%.md$') then
    link.target = path:gsub('%.md$', '.html') .. anchor
  elseif is_file(link.target) then
    linked:write(path, '\n')
  end
  return link
end

function Image(image)
  if is_file(image.src) then
    linked:write(image.src, '\n')
  end
end

-- A file has its name above it. In a transcript commands stand out from what they print.
function CodeBlock(block)
  local language, file = (block.classes[1] or ''):match('^(.-):(.*)$')
  if file then
    block.classes = { language }
    return { pandoc.Div({ pandoc.Plain({ pandoc.Str(file) }) }, { class = 'file' }), block }
  elseif block.classes[1] == 'console' then
    local lines = {}
    for line in (block.text .. '\n'):gmatch('(.-)\n') do
      local text = line:gsub('&', '&amp;'):gsub('<', '&lt;')
      table.insert(lines, text:match('^%$ ') and '<b>' .. text .. '</b>' or text)
    end
    return pandoc.RawBlock('html', '<pre><code>' .. table.concat(lines, '\n') .. '</code></pre>')
  end
end

-- A table wider than its page is scrolled alone.
function Table(block)
  return pandoc.Div({ block }, { class = 'wide' })
end

function Pandoc(document)
  linked:close()
  local first = document.blocks[1]
  if first and first.t == 'Header' and first.level == 1 then
    document.meta.title = pandoc.MetaInlines(first.content)
    document.meta.pagetitle = pandoc.utils.stringify(first)
    document.blocks:remove(1)
  end
  return document
end
