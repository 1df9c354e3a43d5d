" Scenes in ASCII RIB: the requests that are read, tokens and comments.
if exists("b:current_syntax")
  finish
endif
syntax case match
syntax keyword ribRequest Atmosphere Attribute AttributeBegin AttributeEnd Basis Bound Clipping Color ConcatTransform Cone CoordinateSystem CropWindow Cylinder Declare Disk Displacement Display ErrorHandler Exposure Format FrameAspectRatio FrameBegin FrameEnd GeometricApproximation Hider Identity Illuminate LightSource MotionBegin MotionEnd Opacity Option Orientation Patch PatchMesh PixelFilter PixelSamples PixelVariance PointsPolygons Polygon Projection Quantize RelativeDetail ReverseOrientation Rotate Scale ScreenWindow ShadingInterpolation ShadingRate Shutter Sides Sphere Surface Transform TransformBegin TransformEnd Translate WorldBegin WorldEnd version
syntax match ribNumber /[-+]\?\(\d\+\.\?\d*\|\.\d\+\)\([eE][-+]\?\d\+\)\?/
syntax region ribString start=/"/ skip=/\\./ end=/"/
syntax match ribComment /#.*/
highlight default link ribRequest Statement
highlight default link ribNumber Number
highlight default link ribString String
highlight default link ribComment Comment
let b:current_syntax = "rib"
