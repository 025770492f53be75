([a]b ["a"]"b" [1:a]1:b [#61#]#62# [|YQ==|]|Yg==| [text/plain]hello
 [ a ] b [""]x [a]"" ["image/gif"]|R0lGODdh| [3:]](]a)
