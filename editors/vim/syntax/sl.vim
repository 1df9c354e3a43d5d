" Shaders in the RenderMan Shading Language: words, types, variables, built-in functions.
if exists("b:current_syntax")
  finish
endif
syntax case match
syntax keyword slKind surface displacement light volume
syntax keyword slType float color point vector normal string uniform varying
syntax keyword slStatement break continue return if else while for illuminance illuminate solar
syntax keyword slVariable P N Ng I E u v du dv s t Cs Os Ci Oi L Cl Ps dPdu dPdv PI
syntax keyword slFunction abs sign floor ceil round min max clamp mod mix sin cos tan sqrt inversesqrt pow exp log radians degrees step smoothstep xcomp ycomp zcomp comp length distance normalize reflect faceforward transform vtransform ntransform depth noise texture Du Dv calculatenormal ambient diffuse specular
syntax match slNumber /\<\d\+\.\?\d*\([eE][-+]\?\d\+\)\?\|\.\d\+\([eE][-+]\?\d\+\)\?/
syntax region slString start=/"/ skip=/\\./ end=/"/
syntax match slComment +//.*+
syntax region slComment start=+/\*+ end=+\*/+
highlight default link slKind Structure
highlight default link slType Type
highlight default link slStatement Statement
highlight default link slVariable Identifier
highlight default link slFunction Function
highlight default link slNumber Number
highlight default link slString String
highlight default link slComment Comment
let b:current_syntax = "sl"
