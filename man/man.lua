-- How a page of the manual differs from a document: code is bold, a table is a list of what its first column names, and
-- of a link its words stay.

function Code(it)
  return pandoc.Strong(pandoc.Inlines(it.text))
end

function Link(it)
  return it.content
end

-- What a row's other columns say, one after the other.
local function told_by(row)
  local told = pandoc.List()
  for at = 2, #row do
    local cell = pandoc.utils.blocks_to_inlines(row[at])
    if #cell > 0 then
      if #told > 0 then
        told:extend({ pandoc.Str(":"), pandoc.Space() })
      end
      told:extend(cell)
    end
  end
  return { pandoc.Plain(told) }
end

-- A first column of more than a line is a paragraph.
function Table(it)
  local blocks = pandoc.List()
  for _, row in ipairs(pandoc.utils.to_simple_table(it).rows) do
    local term = pandoc.utils.blocks_to_inlines(row[1])
    if #pandoc.utils.stringify(term) > 60 then
      blocks:extend({ pandoc.Para(term), pandoc.BlockQuote(told_by(row)) })
    else
      blocks:insert(pandoc.DefinitionList({ { term, { told_by(row) } } }))
    end
  end
  return blocks
end
